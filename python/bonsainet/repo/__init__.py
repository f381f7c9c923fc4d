"""Tools for who maintains the repository: building, packaging, checks of examples and pages."""
