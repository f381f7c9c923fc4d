"""A reader of questions that leaves the search to Z3, as analysers of configurations do."""
