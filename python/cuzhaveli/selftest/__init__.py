"""Tests the library that this package loads, against a reference of its own in plain Python.

`python3 -m cuzhaveli.selftest [SEED]` goes through every width and number of data disks, every lost
disk and pair, missing cells, plans, runs, servers, bills, refusals, and the kinds of memory that can
be lent. It ends with status 1 if something differs, and then prints the call with its arguments.
"""
