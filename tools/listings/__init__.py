"""What is read of herd's files beyond `check86`: listings for `test86` and `compare`, and the logs of herd7 and litmus7.

The second implementation reads a listing as `check86` does, since it judges the program (`second/listings.py`). Here
more is read, as far as it changes no question. Nothing here gives a verdict: states come from sweeps of the program.

    reading.py     a listing, and its condition         programs.py     which micro-ops it becomes, and its pattern
    logs.py        a log of a machine or of herd        comparing.py    what both show
    test86.py, compare.py    the two words of the script
"""
