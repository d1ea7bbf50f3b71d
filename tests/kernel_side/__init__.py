"""The script's parts of tests/kernel, a module for each kind of case, and the programs in C that are the real side."""
