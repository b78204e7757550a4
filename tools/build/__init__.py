"""How the program is made: the proved one by `rt ci`, and the one without its proofs of the same sources."""
