"""The cases of each file."""
