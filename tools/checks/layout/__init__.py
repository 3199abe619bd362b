"""How files of definitions and proofs are laid out."""
