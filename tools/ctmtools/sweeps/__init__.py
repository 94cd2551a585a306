# Imports many_runs, program, report, study
"""Sweeps: every combination of varied values, run and measured. Imports many_runs and below."""
