"""The command `ficsd`, as the repository's launcher and the installed one run the program."""
