"""The parts of tools.py: what its tests share, and the tests by what they try."""
