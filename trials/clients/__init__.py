"""Clients as people have them, before the go-between and at the server: `tools/trial clients`."""
