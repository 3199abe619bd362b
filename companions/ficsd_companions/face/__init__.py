"""What `fics_face` is made of: `server` is all links, `client` and `server_end` the two ends of one, `session` what is
between them, with its login, and `shared` what all sessions know. `typed` and `told` are the two directions, `request`
lines with the answers due to them, `standing` offers and seeks, `boards` games, `moves` the spelling of moves, `wire`
bytes, `texts` FICS's texts, `helps` what `help` says."""
