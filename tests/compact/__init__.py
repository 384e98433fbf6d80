"""The tests of `sqzcompact`."""
