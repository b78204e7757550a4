"""What the pages have of the crates and of the definitions that have to be believed."""
