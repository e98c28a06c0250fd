"""The parts of ./test: a runner (runner.py), calls of the programs (calls.py), and a module for each group of tests.

A group is a module with a function `tests(programs)`, which gives a `Test` for each of its tests, and a line in GROUPS of ./test.
"""
