"""Trials: what the built program and what runs beside it do under use that takes longer than a test, or harms the
machine that it is tried on. `tools/trial NAME` runs one."""
