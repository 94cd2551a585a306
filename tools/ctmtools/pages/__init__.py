# Imports approaches, assignment, files, network_file, plots, program, report, study, texts, uncertainty, units, yielding
"""Reports as pages for a browser, one file each, that need no network."""
