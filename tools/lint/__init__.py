"""What in a model, and in tests and queries that are asked of it, may change the question without a word."""
