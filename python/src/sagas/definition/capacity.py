"""Numbers of sagas and definitions that a shard can hold.

An event log has a maximum size. The engine refuses a new saga if the log might not have the room
for all events of its open sagas (`log-full`, docs/reference/formats/drive-log.md). Then another
shard takes the saga.
"""

from __future__ import annotations

SHARD_CAPACITY = 1000
"""Maximum number of sagas of a shard.

A saga's id is the number of its shard times this, plus its number in the shard.
"""
MAX_DEFINITIONS = 64
"""Maximum number of definitions of a shard that gets all of them when it is created."""
MAX_ADDED = 256
"""Maximum number of definitions of a shard that gets them with its sagas.

The steps of these sagas come from their input. With fewer definitions the open sagas are spread
over more shards, with smaller batches. With more an engine takes longer to answer a question about
the definitions, because it reads its events again.
"""
HEADER = '{"format":2}\n'
"""The first line of each event log."""
