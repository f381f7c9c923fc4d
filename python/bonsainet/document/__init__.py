"""All classes of a network in one JSON document."""
