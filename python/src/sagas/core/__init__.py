"""States, attempts and shards: logic without input or output."""
