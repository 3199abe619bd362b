"""What an operator's programs see of a server from beside it: `guest` who is in and plays, `shelf` its store and its
disk, `seen` all of it at one look, which `metrics` tells and `rounds` repeats. `run` is fics_watch, and `stop` is what
a server's unit does at a stop."""
