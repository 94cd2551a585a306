# Imports network_file, program, report, study, texts, units
"""Who gives way: what passes by the gaps of those with priority, worked out by runs of the program."""
