"""Building the program, and packages of it with these programs."""
