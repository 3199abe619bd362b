"""The parts of `fics_scribe`, which keeps every game of a server as PGN: `scribe` looks on at all by `watcher`s, a
`sitting` is what is played at a desk, of one `record` or two, its `journal` restores it, and `archive` writes it as
`pgn` and `bpgn`. `disk` brings both to a disk that may be full, by `whole` pieces; `lock` keeps a second scribe out."""
