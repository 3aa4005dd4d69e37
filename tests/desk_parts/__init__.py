"""The parts of desk.py: what all tests share, and the tests by what they try."""
