"""`bonsai-diff`: what changes in routing from one network to another, by prefix."""
