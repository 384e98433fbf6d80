"""The tests of `sqzlook`, and of the second implementation that it is compared with."""
