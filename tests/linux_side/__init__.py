"""Linux's own functions as a program, for tests/linux."""
