"""The keepers of `file_keeper` on a real disk."""
