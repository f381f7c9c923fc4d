"""What docs/use/LINES.md says of kinds of refusals and of heads, as data for the page and the tools."""
