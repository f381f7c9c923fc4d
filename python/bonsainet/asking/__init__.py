"""The options of `bonsai-ask`, which come before its words: what the program says as JSON or JUnit, the ways that traffic
goes, and classes shared out to processors."""
