"""The tests of study.py, and what they share."""
