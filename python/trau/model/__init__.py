"""A reference model: a second program that does what `trau` does, in plain Python, written for
reading."""
