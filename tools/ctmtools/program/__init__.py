# Imports nothing
"""The proved program and other programs: where they are, calls of them, and interrupts."""
