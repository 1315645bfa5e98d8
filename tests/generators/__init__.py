"""Generators of test cases, a subject a file; tests/cases.py collects them."""
