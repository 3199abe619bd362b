"""Ratings of an archive, and the member that tells them: by the paper's own example, by a reader that shares nothing
with the program, and over the server."""
