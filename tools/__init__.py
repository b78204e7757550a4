"""The tools beside the program: what explains, lints, compares and tests in its words, what builds and installs it, and the second
implementation, which judges it. Each has a folder, whose head says what it is for; `python3 tools WORD` calls one by its word."""
import os

# the folder of the checkout, or of the installed copy
TOP = os.path.dirname(os.path.dirname(os.path.realpath(__file__)))
