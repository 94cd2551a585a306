# Imports detectors, files, network_file, texts, units
"""A study in physical units: its file, its parts, and the network that is built of it."""
