"""What a text says that is accepted and likely not meant."""
