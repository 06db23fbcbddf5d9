"""Must-fail edits: what they turn, what decides them, and how the prover answers them."""
