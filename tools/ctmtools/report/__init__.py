# Imports files, network_file, texts, units
"""Reports: their text as numbers, states, queues, routes, travel times, measures and comparisons."""
