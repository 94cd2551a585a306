# Imports network_file, report, texts, units, yielding
"""What engineers read of junctions: demand, capacity, control delay, level of service and queues by approach and movement."""
