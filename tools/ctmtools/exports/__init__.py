# Imports approaches, plots, report, study, texts, units
"""Reports in the formats of other programs."""
