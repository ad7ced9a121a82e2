"""SQLite, for one program at a time."""
