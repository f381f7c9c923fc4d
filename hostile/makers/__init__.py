"""Makers of texts: networks, planted faults, mutated texts, solutions. Each is a function of a source of chance."""
