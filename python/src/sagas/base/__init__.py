"""Errors, events, the log and the program: what every layer may use."""
