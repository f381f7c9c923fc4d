"""One page that a browser opens without a network."""
