# Imports all
"""The commands, a file each: words in, lines out."""
