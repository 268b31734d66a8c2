"""Scenarios: from the intent of a network to a schedule, or to a fleet."""
