"""What examples/suite is made of: it checks pairs of a model and a test by the program and prints one table.

It judges nothing itself: verdicts come from the program, which judges each certificate again, and what should be
observable from a table, from the test, or from a machine of tools/agree.
"""
