"""The tests of resume.py: the rule of what a report keeps, a day with what is left of it, and the tests by what they try."""
