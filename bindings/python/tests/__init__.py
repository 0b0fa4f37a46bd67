"""Tests of the package, for `python3 -m unittest`."""
