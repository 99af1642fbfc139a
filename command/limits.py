"""The limits of documents 01 and 02 on a case text and a budget, and the default budget. docs/CALLS.md has all."""

MOST_BUSES = 64
MOST_LINES = 256
MOST_CIRCUITS = 8
LEAST_SEVERAL = 2
MOST_BUDGET = 8
DEFAULT_BUDGET = 3
MOST_BYTES = 8192
