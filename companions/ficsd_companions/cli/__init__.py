"""What the command lines of several programs share: a file for each kind of word."""
