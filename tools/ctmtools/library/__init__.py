# Imports all but commands
"""The public functions, which commands call as well."""
