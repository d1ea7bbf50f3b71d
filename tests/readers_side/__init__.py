"""Engines' own readers of profiles, for tests/readers."""
