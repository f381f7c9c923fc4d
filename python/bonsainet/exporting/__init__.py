"""Configurations of one router each, in the syntax of other systems, from a text that the program accepts."""
