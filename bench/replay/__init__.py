"""`ficsd replay`."""
