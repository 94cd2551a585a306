# Imports files, moments, network_file, program, report, study, texts, units, yielding
"""Runs of studies and networks by the program: at once, in stretches, metered, and as futures of one moment."""
