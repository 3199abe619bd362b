"""The parts of `fics_ratings`, which makes ratings of an archive's games: `glicko` has Glickman's formulas, `pools`
says which games are rated with which, `verdicts` whether a game is rated and why not, `table` what the days of an
archive make of everybody, and `rated` keeps that with an archive that grows or is corrected. `words` says it in lines;
`member` is the member that `answers` who asks, and hands on what `messages` keeps for who isn't there."""
