"""Makes images, without the programs."""
