"""What the gate checks and makes beside proofs: documents, lists, dependencies."""
