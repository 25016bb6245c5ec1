"""The parts of tests/soak.py: it draws cases, computes what is expected, and compares."""
