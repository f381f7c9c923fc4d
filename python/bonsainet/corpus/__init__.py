"""The networks of FRR's topology tests, imported and run."""
