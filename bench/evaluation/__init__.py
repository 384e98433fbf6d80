"""The tables of docs/FIGURES.md. `bench/evaluate` prints them."""
