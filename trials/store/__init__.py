"""The built program over a store on a real disk: `tools/trial store`."""
