"""Tests of the bot, a scenario a file. `conftest` has a server with a bot, `boards` writes board lines down, `engines`
are programs that speak UCI as they shouldn't."""
