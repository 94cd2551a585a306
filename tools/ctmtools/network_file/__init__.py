# Imports files, program, texts, units
"""The network file as docs/FORMAT.md has it: records and their lines, faults and hints, the network, warnings."""
