"""A shard in the database, and the notes of programs, as one record."""

from __future__ import annotations

import fleet_model
import pytest

from sagas.core.shard.fleet_record import Chunk, InvalidLine, Records, ShardRecord, Takeover

BORN = Takeover(1, "a", -1, "1")
CHUNKS = [Chunk(1, 0, 2, 11), Chunk(1, 2, 3, 12)]
NODE = """took a 7 1 1 0 0
sent a 7 1 1 0 11
heard a 7 1 1 2
told a 7 1 1 2 call
sent a 7 1 1 2 12
heard a 7 1 1 3
told a 7 1 1 3 wake"""
ONE_COMMIT = "took 1 0 0, heard 0, sent 0 11, wrote 0 0 11, heard 0"
TWO = f"{ONE_COMMIT}, told 0 1, sent 0 12, wrote 0 1 12, heard 0, told 0 2"


def merged(
    notes: str,
    takeovers: list[Takeover],
    chunks: list[Chunk],
    now: str = "1",
    sync: bool = False,
    ends: list[tuple[str, int]] | None = None,
) -> ShardRecord:
    """Return the record of shard 7."""
    records = Records()
    for line in filter(None, notes.splitlines()):
        records.add(line)
    record = ShardRecord(records.notes.get(7, {}), sync)
    record.build(takeovers, chunks, now, ends or [])
    return record


def events_of(record: ShardRecord) -> str:
    """Return the events of a record, and why one is not allowed."""
    head, *events = record.text().splitlines()
    assert head.startswith("fleet 1 ") and record.events == len(events)
    fault = fleet_model.judge(record.text())
    return ", ".join(events) + (f": {fault[1]}" if fault else "")


def test_a_record_of_the_database_only() -> None:
    """Each commit was acknowledged before the next one; the acknowledgement of the last one is
    unknown.
    """
    assert (
        events_of(merged("", [BORN], CHUNKS))
        == "took 1 0 0, heard 0, sent 0 11, wrote 0 0 11, heard 0, sent 0 12, wrote 0 1 12"
    )


def test_notes_of_a_node_are_placed() -> None:
    assert events_of(merged(NODE, [BORN], CHUNKS)) == TWO


def test_a_synchronous_standby_has_acknowledged_commits() -> None:
    assert events_of(merged(NODE, [BORN], CHUNKS, sync=True)) == TWO.replace(
        "1 12, heard", "1 12, safe 2, heard"
    ).replace("0 11, heard 0,", "0 11, safe 1, heard 0,")


def test_a_takeover_reads_earlier_chunks() -> None:
    """There are two takeovers between the commits, one of them without a note; and the first node
    continues to write.
    """
    takeovers = [BORN, Takeover(2, "b", 0, "1"), Takeover(3, "b", 0, "1")]
    notes = f"{NODE}\ntook b 7 3 1 2 11"
    assert events_of(merged(notes, takeovers, CHUNKS)).endswith(
        "took 2 1 11, took 3 1 11, heard 2, wrote 0 1 12, heard 0, told 0 2: OldEpoch"
    )


@pytest.mark.parametrize("read", ["3 11", "2 10", "0 0"])
def test_a_takeover_that_read_something_else(read: str) -> None:
    """More lines than exist, other lines, or none."""
    takeovers = [BORN, Takeover(2, "b", 0, "1")]
    why = {"3 11": "OtherLength", "2 10": "OtherContent", "0 0": "OtherLength"}[read]
    assert events_of(merged(f"took b 7 2 1 {read}", takeovers, CHUNKS[:1])).endswith(why)


def test_acknowledged_before_the_confirmation() -> None:
    lines = NODE.splitlines()
    lines[1:1] = [lines.pop(3)]
    assert events_of(merged("\n".join(lines), [BORN], CHUNKS)).endswith("NotKnown")


def test_sent_again_without_an_answer() -> None:
    notes = "\n".join([*NODE.splitlines()[:2], "sent a 7 1 1 2 12"])
    assert events_of(merged(notes, [BORN], CHUNKS)).endswith("NotIdle")


def test_refused_and_failed() -> None:
    """A commit that failed may be sent again; a session that was refused takes over the shard
    again.
    """
    lines = NODE.splitlines()
    lines[1:1] = [lines[1], "failed a 7 1 1"]
    assert events_of(merged("\n".join(lines), [BORN], CHUNKS)) == TWO
    # an acknowledgement of known lines comes in between
    lines[6:6] = [lines[6], lines[5], "failed a 7 1 1"]
    assert events_of(merged("\n".join(lines), [BORN], CHUNKS)) == TWO.replace(
        "told 0 1,", "told 0 1, told 0 1,"
    )
    refused = "\n".join([*NODE.splitlines()[:2], "stale a 7 1 1", "told a 7 1 1 2 call"])
    assert events_of(merged(refused, [BORN], [])).endswith("sent 0 11, stale 0, told 0 1: NotKnown")


def test_a_chunk_that_its_session_did_not_send() -> None:
    """Its node noted other lines than these, or no such epoch exists."""
    other = [Chunk(1, 0, 2, 99)]
    assert events_of(merged("\n".join(NODE.splitlines()[:3]), [BORN], other)).endswith(
        "wrote 0 0 99, heard 0: OtherContent"
    )
    assert events_of(merged("", [BORN], [Chunk(5, 0, 2, 11)])).endswith("NoSuchSession")


def test_a_shard_whose_first_commit_was_refused() -> None:
    """Its commit was refused.

    The replies and acknowledgements of the session stay in the record.
    """
    lines = NODE.splitlines()
    assert events_of(merged("\n".join([*lines[:2], "stale a 7 1 1"]), [], [])) == ""
    assert events_of(merged("\n".join(lines[:3]), [], [])) == "heard 999999999: NoSuchSession"
    assert (
        events_of(merged("\n".join([*lines[:2], "stale a 7 1 1", lines[3]]), [], []))
        == "told 999999999 1: NoSuchSession"
    )


def test_an_epoch_of_another_node() -> None:
    """The epoch is another node's on this server, or on the one before it."""
    takeovers = [BORN, Takeover(2, "c", 2, "1")]
    notes = f"{NODE}\ntook b 7 2 1 3 12\ntold b 7 2 1 3 call"
    for now in "12":
        assert "heard 999999999, told 999999999 2" in events_of(
            merged(notes, takeovers, CHUNKS, now)
        )


@pytest.mark.parametrize("sync", [False, True])
@pytest.mark.parametrize("notes", ["", "\n".join(NODE.splitlines()[:5])])
def test_a_shard_that_was_taken_and_closed_before_a_promotion(notes: str, sync: bool) -> None:
    """Its first node was killed before the reply to the last commit.

    The second one took the shard over and only closed it; a client got a result.
    """
    takeovers = [BORN, Takeover(2, "b", 2, "1")]
    events = events_of(
        merged(f"{notes}\nclosed b 7 2 1", takeovers, CHUNKS, "2", sync, [("client", 3)])
    )
    assert ":" not in events and ", moved 2 2, " in events
    assert events.index("heard 1") < events.index("moved 2 2") < events.rindex("told")


@pytest.mark.parametrize(
    ("epochs", "notes", "events"),
    [
        ((1, 1), "", "wrote 0 1 12, took 2 2 12, took 3 2 12"),
        ((1, 2), "", "wrote 0 0 11, took 2 1 11, heard 1, sent 1 12, wrote 1 1 12, took 3 2 12"),
        (
            (1, 1),
            "took b 7 2 1 2 11",
            "took 2 1 11, heard 1, heard 0, sent 0 12, wrote 0 1 12, took 3 2 12: OldEpoch",
        ),
        ((1, 1), "took b 7 2 1 3 12", "wrote 0 1 12, took 2 2 12, heard 1, took 3 2 12"),
        ((3, 3), "", "took 1 0 0, took 2 0 0, took 3 0 0"),
    ],
)
def test_a_takeover_without_a_read(epochs: tuple[int, int], notes: str, events: str) -> None:
    """The takeover is placed where its node read; else as late as the epochs of the
    chunks allow.
    """
    chunks = [chunk._replace(epoch=epoch) for chunk, epoch in zip(CHUNKS, epochs)]
    last = -1 if epochs == (3, 3) else 2
    takeovers = [BORN, Takeover(2, "b", None, "1"), Takeover(3, "c", last, "1")]
    assert events in events_of(merged(notes, takeovers, chunks))


def test_another_server_lacks_the_last_commit() -> None:
    """The second commit was confirmed and acknowledged, and is missing: it is placed before the
    takeover.
    """
    takeovers = [BORN, Takeover(2, "a", 0, "2")]
    record = merged(f"{NODE}\ntook a 7 2 2 2 11", takeovers, CHUNKS[:1], "2")
    assert events_of(record) == f"{TWO}, moved 1 1, took 2 1 11, heard 1"
    assert [(loss.chunk_count, loss.acknowledgements) for loss in record.losses] == [
        (1, [("wake", 2)])
    ]
    assert events_of(merged(NODE, takeovers, CHUNKS[:1], "2", sync=True)).endswith(
        "FewerThanShipped"
    )


def test_another_server_lacks_takeovers() -> None:
    """The shard went to another node, as that one noted; no node noted the epoch between."""
    notes = f"{NODE}\ntook b 7 3 1 3 12\nsent b 7 3 1 3 13\nheard b 7 3 1 4"
    record = merged(notes, [BORN, Takeover(2, "a", 2, "2")], CHUNKS, "2")
    assert (
        events_of(record)
        == f"{TWO}, took 2 2 12, took 3 2 12, heard 2, sent 2 13, wrote 2 2 13, heard 2,"
        " moved 2 1, took 2 2 12"
    )
    assert record.losses == []


def test_another_server_lacks_the_shard() -> None:
    record = merged(NODE, [], [], "2")
    assert events_of(record) == f"{TWO}, moved 0 0" and [
        loss.chunk_count for loss in record.losses
    ] == [0]


def test_another_server_takes_over_and_the_shard_rests() -> None:
    assert events_of(merged(NODE, [BORN], CHUNKS, "2")) == f"{TWO}, moved 2 1"


@pytest.mark.parametrize("notes", ["", NODE])
def test_an_end_that_a_client_got(notes: str) -> None:
    """The database has shown it, so its commit is done; no session knows of another one."""
    assert events_of(merged(notes, [BORN], CHUNKS, ends=[("client", 3)])).endswith("told 0 2")
    assert events_of(merged(notes, [BORN], CHUNKS, ends=[("client", 4)])).endswith(
        "told 999999999 3: NoSuchSession" if notes else "told 0 3: NotKnown"
    )


@pytest.mark.parametrize(
    "line",
    [
        "sagas-record 2 a",
        "took a 7 1",
        "sent a 7 1 1 x 11",
        "heard a 7 1 1 -2",
        "what a 7 1 1 2",
        "",
        "seen a x wake",
    ],
)
def test_an_invalid_line(line: str) -> None:
    with pytest.raises(InvalidLine):
        Records().add(line)


def test_the_content_of_records() -> None:
    """A record has shards, closed shards, and the results that clients got."""
    records = Records()
    for line in (
        *NODE.splitlines(),
        "sagas-record 1 b",
        "closed a 7 1 1",
        "took a 8 1 1 0 0",
        "seen b 7004 client",
        "seen b 7004 client",
        "seen b 8001 webhook",
    ):
        records.add(line)
    assert [*records.shards()] == [7, 8] and records.is_closed(7) and not records.is_closed(8)
    assert records.ends(7000, 8000) == [(7004, "client")] and records.ends(0, 9000) == [
        (7004, "client"),
        (8001, "webhook"),
    ]
