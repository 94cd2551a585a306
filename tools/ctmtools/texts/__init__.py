# Imports nothing
"""Texts and numbers as files, messages and tables spell them."""
