"""Measures the programs, counts what the repository holds, and draws a picture for docs/."""
