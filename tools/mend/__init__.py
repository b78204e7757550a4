"""`pipecheck mend`: the order that a model lacks, of an outcome that it shows. Every verdict is the program's.

copies.py writes copies of the test, asking.py asks the program of them and reads the runs that it answers with, orders.py looks
for the orders, relations.py makes general ones of them, and telling.py says both.
"""
