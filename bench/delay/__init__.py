"""How late news come."""
