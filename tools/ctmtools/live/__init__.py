# Imports assignment, files, network_file, pages, plans, program, report, runs, study, sweeps, texts, uncertainty
"""The page that answers while one drags: a study as it is changed, its runs, and the server on this machine."""
