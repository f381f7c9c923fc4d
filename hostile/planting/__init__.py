"""Faults planted on purpose, in copies of the program and in the second reader, and whether a run finds them."""
