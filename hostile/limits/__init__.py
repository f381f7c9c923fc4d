"""Each limit of the README at its value and one beyond."""
