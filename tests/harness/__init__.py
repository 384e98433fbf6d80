"""Runs the programs, and checks how a run ended, what it wrote and what it printed."""
