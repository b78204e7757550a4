"""A second implementation of µspec models and litmus tests, which shares no code with the program.

The program is proved against definitions; this package was written from a description of the language. Where the two differ, one
of them reads it wrongly. It is made to be read and not to be fast. Each step is one module, and data flows one way:

    bytes    tokens.py      cut into tokens
    model    models.py      the written axioms, by the grammar
             scopes.py      the faults of stages, macros, sizes and names
    query    queries.py     a formula that is asked of a model, and its faults
    test     cases.py       what a litmus test says
             meaning.py     what the parts of axioms stand for in it
    ground   grounding.py   the axioms over one test as a tree of literals over nodes
    verdict  orders.py      the nodes and the order that the literals of a branch generate
             searching.py   some world makes the tree true, or none does
    text     positions.py   the tree with numbered positions
             answering.py   the program's own choices in the search, which give the certificate
             conflicts.py   what such a search learns of its failures
             closing.py     what it takes for closed without asserting it, once something has failed
    judge    evaluating.py  the written axioms, evaluated in a given world, without the tree
             judging.py     a certificate, line by line
             lifted.py      a lifted refutation, line by line, on the axioms as they are written

`solvers.py` puts the same question to other solvers.
"""
