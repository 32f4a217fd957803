"""A run read back: its orders, its report and its lines."""
