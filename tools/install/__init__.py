"""How an installation is made, renewed and taken away."""
