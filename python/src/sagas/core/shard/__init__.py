"""A shard: what is loaded of it, what a commit of it writes, and its slots."""
