"""Tests of what the command lines of the programs share."""
