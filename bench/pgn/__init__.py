"""`ficsd tidy`, beside pgn-extract."""
