"""What runs beside the server: a folder a program, whose `run.py` is its beginning, and what several share: `cli` reads
command lines, `limits` bounds what links may take."""
