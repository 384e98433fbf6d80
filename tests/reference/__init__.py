"""The second implementation: reads an image, and finds what the programs must make of it and print
about it. It imports nothing that makes images or runs programs."""
