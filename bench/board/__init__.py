"""`ficsd board`."""
