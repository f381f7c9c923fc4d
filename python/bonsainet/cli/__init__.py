"""What all tools share at their command line."""
