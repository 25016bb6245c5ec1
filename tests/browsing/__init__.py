"""How tests/web.py drives a browser, and what it compares the module with."""
