"""What the tools and the model share: frames, the search for them, laws, orders and their replies,
reports, lines, command lines."""
