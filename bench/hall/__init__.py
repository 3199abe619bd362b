"""The hall, by threads."""
