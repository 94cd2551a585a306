# Imports files, many_runs, network_file, program, runs, study, texts
"""Plans of one network, judged by the program's mode `choose`: all combinations of varied values, or a search. Imports many_runs and below."""
