"""`ficsd serve`, beside an echo server."""
