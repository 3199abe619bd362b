"""What the server does under hostile use. `tools/trial hostile` runs all, each short; `hostile.NAME` one of them."""
