"""Tests of `fics_scribe`, each file a subject."""
