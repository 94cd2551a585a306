# Imports files, network_file, program, study, texts, units
"""Saved moments of runs: their text, going on from them, and ramp meters."""
