"""The parts of failing.py: what all share, texts that are cut, calls that fail, runs midway, places."""
