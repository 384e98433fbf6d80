"""The tests that run the built programs. `python3 -m tests` runs all but those by hand."""
