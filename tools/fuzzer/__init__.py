"""What looks further than the gate: random inputs, and allocations that are refused."""
