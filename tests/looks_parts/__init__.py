"""Tests of the tools that look at the sources, on small crates."""
