# Imports detectors, many_runs, program, report, study, texts
"""A study against what detectors saw: how near it comes, the values by which it comes nearest, and a lane's diagram."""
