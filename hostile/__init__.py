"""Hostile use: a second reader, makers of texts, and the runs that compare the program with both."""
