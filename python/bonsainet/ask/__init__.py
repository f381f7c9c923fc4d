"""How the program is asked, and its answers as plain data."""
