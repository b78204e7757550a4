"""The machines of memory models, each a file by its name: which outcomes a test may have, step by step, without axioms."""
