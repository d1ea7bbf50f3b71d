"""What boots kernels of other machines for tests/machines: packages, a guest, and the parts that are tried on it alone."""
