"""Tests of the launcher, by which a server is run by hand."""
