"""Attempts of steps: their model, the transition table, and the machine that reads it."""
