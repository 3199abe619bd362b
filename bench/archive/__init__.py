"""The index of a large archive."""
