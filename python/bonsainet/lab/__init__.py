"""A network on real routers: FRRouting, one network namespace for each router, in an enclosure that ends with the
tool."""
