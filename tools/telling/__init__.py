"""What the script `pipecheck` says on standard error: the forms of its commands, where a refused file has its fault, which files
cannot be read. Verdicts and statuses are the program's."""
