"""Timings: what programs take of a machine. `tools/bench NAME` runs one."""
