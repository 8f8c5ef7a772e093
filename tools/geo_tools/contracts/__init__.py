"""What the contracts are worth: edits that the prover has to refuse, and wrong bodies that it lets through."""
