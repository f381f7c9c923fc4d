"""Pictures of a network before and after compression."""
