"""Checks of what no proof covers: a module each, and `tests/check` runs them."""
