"""What stands before the go-betweens, as docs/OPERATING.md and docs/WEB.md print it: each example is run."""
