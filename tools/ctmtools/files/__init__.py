# Imports texts
"""Files: what they are, written as wholes, packed, sealed and checked."""
