"""The launcher's own words: help on the commands, and the version."""
