"""What `tests/edits`, `tests/wrong-bodies` and `tests/wrong-rules/run` share: how mistakes are written, made, chosen and tried."""
