"""Checks of the repository's text, each a file: `faults()` gives a line for each place that isn't as it should be."""
