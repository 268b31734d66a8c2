"""Plots of the table of a sweep."""
