"""The parts of `fics_bot`, an engine that is a member: `options` reads its command line, `terms` says which games it
plays, `position` what its games look like to an engine, `uci` and `house` are the engines, `thinker` asks them, `clock`
says for how long, `last_resort` is for where none answers, `table` plays one game, `memory` keeps its half-moves for
another day, `lobby` gets games, `visitors` tells who comes and goes, `talk` answers, `host` holds all of them together,
and `journal` is the log."""
