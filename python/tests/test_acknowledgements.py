"""A program's record of its commits and acknowledgements, without a database."""

from __future__ import annotations

import dataclasses
import json
import pathlib
import random
from collections.abc import Iterator, Sequence
from typing import Any
from zlib import crc32

import pytest

import sagas
from sagas.core import recovery
from sagas.core.shard.batch import LoadedShard
from sagas.core.effects import Effects
from sagas.core.attempt.model import Attempt
from sagas.core.attempt.instance import SagaInstance
from sagas.core.shard.driver import ShardDefinitions, ShardDriver, ShardIdentity
from sagas.core.states import ShardState
from sagas.definition.registry import DefinitionRegistry
from sagas.runtime.acknowledgements import Acknowledgements
from sagas.storage.record_file import BEYOND, RecordFile, number

SHARD, LINE = 7, "00000001"
EDGES = "call", "wake", "reply"
REPLIES = (
    '{"event":{"def":0,"event":"open","saga":0}}',
    '{"tasks":[{"attempt":1,"name":"a","saga":0,"step":0,"task":"run"}]}',
)


@dataclasses.dataclass
class Sent:
    """A commit."""

    parts: dict[str, Sequence[Any]]
    events: dict[int, int]


def commit(first: int, text: str = "a\nb\n", shard: int = SHARD, epoch: int = 1) -> Sent:
    """Return a commit of one chunk."""
    rows = [(shard, first, 0.0, text, epoch)]
    return Sent({"lines": rows}, {shard: first + text.count("\n")})


@pytest.fixture
def record(tmp_path: pathlib.Path) -> Iterator[RecordFile]:
    """Return a record in which a shard without events was taken over."""
    file = RecordFile(str(tmp_path / "record"), "run")
    file.open()
    file.moved(LINE)
    file.took((SHARD, 1, LINE), 0, "")
    yield file
    file.close()


def noted(record: RecordFile) -> list[str]:
    """Return the lines of a record that is closed, without the name of the session."""
    record.close()
    return written(record)


def written(record: RecordFile) -> list[str]:
    """Return the lines that are in the file."""
    fields = [line.split(" ") for line in pathlib.Path(record.path).read_text().splitlines()]
    return [" ".join([field[0], *field[5:]]) for field in fields if field[0] != "sagas-record"]


def digest(text: str) -> int:
    return number(crc32(text.encode()))


FIRST = f"sent 0 {digest('a' + chr(10) + 'b' + chr(10))}"
SECOND = f"sent 2 {digest(('a' + chr(10) + 'b' + chr(10)) * 2)}"


def test_an_acknowledgement_is_written_with_its_reply(record: RecordFile) -> None:
    """An acknowledgement can wait if it depends on no more than another one."""
    session, first_commit = record.session(SHARD, 1), commit(0)
    record.commit = first_commit
    assert written(record) == []
    record.heard(first_commit, {SHARD})
    record.acknowledge((session, 2), "wake")
    expected = ["took 0 0", FIRST, "heard 2", "told 2 wake"]
    assert written(record) == expected
    record.acknowledge((session, 2), "call")
    record.acknowledge((session, 1), "call")
    record.acknowledge((session, 2), "wake")
    assert written(record) == expected and noted(record) == [*expected, "told 2 call"]


def test_an_acknowledgement_of_an_older_chunk_while_another_is_sent(record: RecordFile) -> None:
    """It is written at once. The chunk in transit follows, with its reply."""
    session, first_commit, second_commit = record.session(SHARD, 1), commit(0), commit(2)
    record.commit = first_commit
    record.heard(first_commit, {SHARD})
    record.commit = second_commit
    record.acknowledge((session, 2), "call")
    assert written(record) == ["took 0 0", FIRST, "heard 2", "told 2 call"]
    record.heard(second_commit, {SHARD})
    assert noted(record)[4:] == [SECOND, "heard 4"]


def test_an_early_acknowledgement_follows_what_was_sent(record: RecordFile) -> None:
    """It also precedes the reply, if one comes."""
    session, first_commit, second_commit = record.session(SHARD, 1), commit(0), commit(2)
    record.commit = first_commit
    record.heard(first_commit, {SHARD})
    record.commit = second_commit
    record.acknowledge((session, 4), "call")
    assert written(record) == ["took 0 0", FIRST, "heard 2", SECOND, "told 4 call"]
    record.heard(second_commit, {SHARD})
    record.commit = commit(4, "c\n")
    assert [line.split(" ")[0] for line in noted(record)[5:]] == ["heard", "sent"]


def test_a_commit_without_an_answer(record: RecordFile) -> None:
    """The commit is in the record, and so are the replies of the others."""
    session = record.session(SHARD, 1)
    record.commit = commit(0)
    record.unanswered()
    record.commit = first_commit = commit(0)
    record.heard(first_commit, ())
    record.commit = commit(0)
    record.failed()
    assert noted(record) == ["took 0 0", FIRST, FIRST, "stale", FIRST, "failed"]
    assert session.digest == 0


def test_another_server_takes_over_while_a_commit_is_sent(record: RecordFile) -> None:
    """The commit and its reply are those of the server at the time of sending."""
    first_commit = commit(0)
    record.commit = first_commit
    record.moved("00000002")
    record.heard(first_commit, {SHARD})
    record.acknowledge((record.session(SHARD, 1), 2), "call")
    record.close()
    lines = [line.split(" ") for line in pathlib.Path(record.path).read_text().splitlines()[1:]]
    assert [(fields[0], fields[4]) for fields in lines] == [
        ("took", LINE),
        ("sent", LINE),
        ("heard", LINE),
        ("told", "00000002"),
    ]


@pytest.mark.parametrize("early", [False, True])
def test_a_shard_that_begins(record: RecordFile, early: bool) -> None:
    """Its takeover is noted once, before its first commit and before acknowledgements that depend
    on it.
    """
    first_commit, session = commit(0, shard=8), record.session(8, 1)
    first_commit.parts["born"] = [(8, "name")]
    record.commit = first_commit
    if early:
        record.acknowledge((session, 2), "call")
    record.heard(first_commit, {8})
    if not early:
        record.acknowledge((session, 2), "call")
    assert record.session(8, 1) is session
    second_commit = commit(2, shard=8)
    record.commit = second_commit
    record.heard(second_commit, {8})
    acknowledged, heard = "told 2 call", "heard 2"
    order = [acknowledged, heard] if early else [heard, acknowledged]
    assert noted(record) == ["took 0 0", "took 0 0", FIRST, *order, SECOND, "heard 4"]


def test_lines_are_in_order(tmp_path: pathlib.Path) -> None:
    """The order is that of a record that writes each line at once.

    Only an acknowledgement of an earlier reply may come before a commit that was sent in the
    meantime. Acknowledged lines are in the file.
    """
    for seed in range(300):
        chance = random.Random(seed)
        record = RecordFile(str(tmp_path / f"record-{seed}"), "run")
        record.open()
        record.moved(LINE)
        expected: dict[int, list[str]] = {1: [], 2: []}
        heads, texts, newest = {1: 0, 2: 0}, {1: "", 2: ""}, dict[tuple[int, str], int]()
        for shard, lines in expected.items():
            record.took((shard, 1, LINE), 0, "")
            lines.append("took 0 0")
        under_way: Sent | None = None
        for _ in range(60):
            if chance.random() < 0.5:
                shard, edge = chance.choice((1, 2)), chance.choice(EDGES)
                early = chance.random() < 0.1
                events = chance.randint(0, heads[shard]) + 5 * early
                record.acknowledge((record.session(shard, 1), events), edge)
                if newest.get((shard, edge), -1) < events:
                    is_newest = events > max([newest.get((shard, edge), -1) for edge in EDGES])
                    newest[shard, edge] = events
                    expected[shard].append(f"told {events} {edge}")
                    if is_newest:
                        has = pathlib.Path(record.path).read_text().splitlines()
                        assert has[-1] == f"told run {shard} 1 {LINE} {events} {edge}"
            elif under_way is None or chance.random() < 0.1:
                if under_way is not None:
                    record.unanswered()
                shards = chance.choice(([1], [2], [1, 2], []))
                rows = [(log, heads[log], 0.0, chance.choice("xyz") + "\n", 1) for log in shards]
                under_way = Sent({"lines": rows} if rows else {}, {})
                for log, first, _, text, _ in rows:
                    under_way.events[log] = first + 1
                    expected[log].append(f"sent {first} {digest(texts[log] + text)}")
                record.commit = under_way
            else:
                rows, mine = list(under_way.parts.get("lines", ())), chance.choice(({1, 2}, {1}))
                record.heard(under_way, mine)
                for log, first, _, text, _ in rows:
                    if log in mine:
                        heads[log], texts[log] = first + 1, texts[log] + text
                    expected[log].append(f"heard {first + 1}" if log in mine else "stale")
                under_way = None
        record.close()
        for shard, lines in expected.items():
            fields = [
                line.split(" ") for line in pathlib.Path(record.path).read_text().splitlines()
            ]
            shard_lines = [
                " ".join([field[0], *field[5:]]) for field in fields if field[2] == str(shard)
            ]
            assert in_canonical_order(shard_lines) == in_canonical_order(
                lines
            ), f"seed {seed}, shard {shard}"


def in_canonical_order(lines: Sequence[str]) -> list[str]:
    """Return the lines, with each such acknowledgement moved before the commit that it follows."""
    ordered, heard = list[str](), 0
    for line in lines:
        word, *fields = line.split(" ")
        heard = int(fields[0]) if word == "heard" else heard
        index = len(ordered)
        if word == "told" and int(fields[0]) <= heard:
            while ordered[index - 1].startswith(("sent", "told")) and _may_swap(ordered, index):
                index -= 1
        ordered.insert(index, line)
    return ordered


def _may_swap(lines: Sequence[str], index: int) -> bool:
    """Return whether a commit is between that index and the last reply."""
    for line in reversed(lines[:index]):
        if line.startswith("sent"):
            return True
        if not line.startswith("told"):
            return False
    return False


# -- the commits that acknowledgements depend on


def definitions() -> DefinitionRegistry:
    saga = sagas.Saga("one")
    saga.step(name="a")(lambda task: None)
    return DefinitionRegistry([saga])


def begun(acknowledgements: Acknowledgements) -> tuple[ShardDriver, Attempt]:
    """Return a shard with the first attempt of a saga, whose commit is done."""
    kinds = definitions().kinds
    shard = ShardDriver.created(ShardIdentity(SHARD, "name", ShardDefinitions(kinds)), LINE)
    shard.set_state(ShardState.STARTING)
    shard.set_state(ShardState.ACTIVE)
    shard.open(SagaInstance("k", "{}", kinds[0], 0))
    shard.requests(8)
    effects = shard.replies(REPLIES, "line\n", 0.0)
    assert isinstance(effects, Effects)
    acknowledgements.decided(effects)
    shard.begin_commit(effects)
    shard.committed(effects)
    (attempt,) = effects.dispatch
    return shard, attempt


def recovered(shard: ShardDriver, busy: Sequence[tuple[int, str, int]]) -> recovery.Recovery:
    """Return the effects of a recovery of a shard whose saga is open, with these attempts."""
    shard.fail()
    shard.set_state(ShardState.LOADING)
    rows = [(SHARD * 1000, "k", 0, "{}", None, None, None, 0.0)]
    loaded = LoadedShard("line\n", 1, 1, rows, [], [], 2, LINE, 1)
    shard.loaded(loaded)
    known = {saga.key: saga for saga in shard.sagas.values()}
    busy_tasks = [{"saga": 0, "step": step, "task": word, "attempt": at} for step, word, at in busy]
    return recovery.recover(loaded, [json.dumps({"busy": busy_tasks})], 0.0, shard, known)


def test_acknowledgements_of_an_attempt_outside_the_store(record: RecordFile) -> None:
    """Its saga may be the same one as before, and restored.

    If it were called anyway, the record would not be allowed, even if an older session had its
    reply.
    """
    acknowledgements = Acknowledgements(record)
    shard, attempt = begun(acknowledgements)
    acknowledgements.called(attempt)
    acknowledgements.recovered(recovery_result := recovered(shard, [(0, "run", 1)]))
    assert recovery_result.resumed == [attempt] and recovery_result.restored == [attempt.instance]
    acknowledgements.called(attempt)
    acknowledgements.recovered(recovery_result := recovered(shard, []))
    assert recovery_result.forgotten == [attempt] and recovery_result.restored == [attempt.instance]
    assert attempt.instance.rest and attempt.rest is None
    acknowledgements.called(attempt)
    assert [line for line in noted(record) if line.startswith("told")] == [
        "told 1 call",
        "told 1 call",
        f"told {BEYOND} call",
    ]


def test_acknowledgements_of_sagas_outside_the_store(record: RecordFile) -> None:
    """No acknowledgement of it depends on the decision."""
    acknowledgements = Acknowledgements(record)
    shard, attempt = begun(acknowledgements)
    saga = attempt.instance
    effects = shard.effects(0.0)
    effects.opened, effects.ended, effects.dispatch = [saga], [saga], [attempt]
    acknowledgements.decided(effects)
    acknowledgements.lost(effects)
    acknowledgements.started(saga)
    acknowledgements.ended(saga)
    acknowledgements.replied(saga)
    acknowledgements.started(SagaInstance("other", "{}", definitions().kinds[0], 0))
    acknowledgements.ended(SagaInstance("other", "{}", definitions().kinds[0], 0))
    assert noted(record) == ["took 0 0"]


def test_acknowledgements_of_another_nodes_saga(record: RecordFile) -> None:
    """Another node has it. If its function were called, the record would not be allowed."""
    acknowledgements = Acknowledgements(record)
    shard, attempt = begun(acknowledgements)
    acknowledgements.over(shard.sagas.values())
    acknowledgements.started(attempt.instance)
    acknowledgements.ended(attempt.instance)
    acknowledgements.reported(attempt)
    acknowledgements.called(attempt)
    assert noted(record) == ["took 0 0", f"told {BEYOND} call"]
