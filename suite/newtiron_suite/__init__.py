"""What the suites share, and the suites that take several files: stores, sockets, web and
hostile."""
