"""The event-loop side of a store: shards, functions, commits, background work."""
