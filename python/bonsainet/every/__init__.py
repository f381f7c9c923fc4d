"""A command for all classes, by many processors and machines."""
