"""Tries the explorer in a browser."""
