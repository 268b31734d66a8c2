"""Sweeps: a scenario over a grid of values, each run a replay of a file of its own, and a row of a table."""
