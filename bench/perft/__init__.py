"""Lists of half-moves, beside Stockfish."""
