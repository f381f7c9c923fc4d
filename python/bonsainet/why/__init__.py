"""`bonsai-why`: why two routers are not in one group, by the lines of the configurations."""
