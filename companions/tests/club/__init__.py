"""Tests of `./club`."""
