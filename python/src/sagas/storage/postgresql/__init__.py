"""PostgreSQL, for many nodes."""
