# Imports chains, files, program, study, texts
"""Networks of other programs as studies: what is read of their files, and the study that is written of it."""
