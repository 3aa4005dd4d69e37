"""Days that the program drives."""
