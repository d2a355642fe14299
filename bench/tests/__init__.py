"""Tests of the bench: `python3 -m unittest discover bench`."""
