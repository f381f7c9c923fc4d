"""Configurations as the tools see them: text, records, network, compressed network, changes."""
