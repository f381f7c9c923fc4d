"""All refusals of a text at once, each the verdict of the program on a text that the list names."""
