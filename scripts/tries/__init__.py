"""What stands in no gate: faults of the system, random inputs, counted bounds, a browser."""
