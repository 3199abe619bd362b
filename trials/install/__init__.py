"""A fresh Debian, set up as docs/OPERATING.md says: `tools/trial install`. `inside` and what it imports run in it."""
