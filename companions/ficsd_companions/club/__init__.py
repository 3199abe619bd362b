"""The parts of `./club`: `options` reads its command line, `checks` is what has to be so before anything starts, `part`
is one of the programs that it runs, `search` is the program by which House searches before any proof, and `evening`
starts them, shows what they say and ends them in order."""
