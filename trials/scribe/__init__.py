"""An evening that fics_scribe keeps, held against what the players saw: `tools/trial scribe`."""
