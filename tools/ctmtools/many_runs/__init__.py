# Imports files, network_file, program, report, runs, study, texts, yielding
"""Many runs of a study: what is varied, who makes them, the file of kept rows, and the results."""
