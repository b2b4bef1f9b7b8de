"""The tests from outside: the built program is run, and its files, output, errors and status are compared.

`./test` starts this package after the proofs. `groups.py` lists all groups of trials in the order in
which they are printed. A trial that is a run of the program with words is a row of a table (`program.py`,
`options.py`); the others are functions here, or in the scripts of `equipment/` next to this folder.
"""
