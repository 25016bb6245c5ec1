"""The cases that tests/program.py runs, by subject."""
