"""What a certificate, and an answer of `core` or of `ask`, says in the words of the model."""
