"""The tests of live.py: the client and its judge, what is given to `live`, and the tests by what they try."""
