"""Tests of ficslink, a file for each subject. `conftest` has a server that a test plays, over which answers and news
come as they are written down, and the real one; `engines` are engines that tell positions."""
