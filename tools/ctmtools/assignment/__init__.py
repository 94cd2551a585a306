# Imports files, many_runs, network_file, plans, program, report, runs, study, texts, units, yielding
"""Drivers who choose their way: trips, ways, travel times along them, and the turning shares that follow."""
