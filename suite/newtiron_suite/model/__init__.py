"""Models of the standard, written apart from the server's code."""
