# Imports files, texts, units
"""Files of detectors as they come: read into one frame, by whatever format they are in."""
