# Imports assignment, calibration, chains, files, moments, report, texts, uncertainty, units
"""Pictures of reports, by matplotlib."""
