"""Measurements that are kept, and what is drawn from them."""
