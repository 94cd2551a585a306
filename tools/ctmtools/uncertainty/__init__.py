# Imports approaches, files, many_runs, network_file, program, report, runs, study, texts
"""A study whose demand, capacity and incidents aren't known for sure: what is uncertain, its draws and what they show."""
