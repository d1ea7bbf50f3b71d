"""What tests/rows is made of, a module for each idea."""
