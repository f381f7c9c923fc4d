"""Devices and memory that fail, and what the program must then say."""
