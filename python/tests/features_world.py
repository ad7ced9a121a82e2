"""The program of `kills_features.py`: a node with callers, an operator and a worker.

    python3 tests/features_world.py SETTINGS NODE RELEASE

It prints `open`, and then `done` once its callers have the results of all sagas. SIGTERM closes it.
It reports each reply that it gets to the witness. A file `quiet` next to the settings says that the
faults are over: then the operator also reports the steps that nothing else reports.
"""

from __future__ import annotations

import asyncio
import contextlib
import datetime
import functools
import json
import logging
import os
import pathlib
import random
import secrets
import signal
import subprocess
import sys
import types
from collections.abc import AsyncIterator, Awaitable, Callable
from typing import Any

import features_celery
import features_wrong
from features_erased import blobs_of
from features_shop import (
    EXTERNAL,
    MARK,
    Scramble,
    Settings,
    Shop,
    is_erasable,
    is_short,
    labels_of,
    order_of,
    plain,
)
from features_store import rows_of
from world import chance, is_unexpected, reported

import psycopg
import sagas
import sagas.definition.registry
from sagas.core.webhook_rows import TYPES
from sagas.server.webhooks import Webhook, Webhooks

THRESHOLD = 300
EVERY = datetime.timedelta(seconds=1)
RETENTION = datetime.timedelta(seconds=1.5)
WORKER_LEASE = 1.0
VISAS = 3
"""Sagas that wait for approvals in a round with retention."""
LATER = (sagas.TemporaryError, sagas.OwnerUnavailable)
"""The errors after which a call is repeated."""


class Node:
    """One program: its store, and all its work with it."""

    def __init__(self, settings: Settings, name: str, release: int) -> None:
        self.settings, self.name = settings, name
        self.shop = Shop(settings, release, features_celery.queue_of(settings))
        self.has, self.note = self.shop.has, self.shop.note
        self.store = self._store()
        self.finished = self._finished_before()
        self.are_callers_done = False

    @property
    def is_quiet(self) -> bool:
        """Return whether the faults are over."""
        return pathlib.Path(self.settings.folder, "quiet").exists()

    def _finished_before(self) -> set[str]:
        """Return the sagas whose results this node got: retention may have freed their keys."""
        notes = pathlib.Path(self.settings.folder, "notes")
        lines = notes.read_bytes().splitlines() if notes.exists() else []
        over = (note for note in map(json.loads, lines) if note["what"] == "over")
        return {note["key"] for note in over if self.has("retention") or note["by"] == self.name}

    # -- opened

    def _store(self) -> sagas.Store:
        settings, has, options = self.settings, self.has, dict[str, Any]()
        folder = pathlib.Path(settings.folder)
        if settings.is_served:
            options |= {"node": self.name, "lease": settings.lease}
        if has("context"):
            options["context"] = self._context
        if has("codec"):
            options["codec"] = Scramble()
        if has("blobs"):
            is_table = settings.is_served and settings.seed % 2
            blobs = sagas.PostgresBlobStore(settings.urls[0]) if is_table else None
            options["blobs"] = blobs or sagas.FolderBlobStore(folder / "blobs")
            options["blob_threshold"] = THRESHOLD
        if has("retention"):
            options |= {"retention": RETENTION, "archive_dir": folder / "archive"}
        hooks: list[Webhooks] = []
        store_or_pooler, options["direct_url"] = settings.opened
        store = sagas.open(
            store_or_pooler,
            self.shop.sagas,
            concurrency=8,
            settings=sagas.Settings(engine_processes=4),
            shutdown_timeout=10,
            on_event=lambda event: [hook.event(event) for hook in hooks],
            **options,
        )
        store.leased = True
        if has("webhooks"):
            hook = Webhook("shop", settings.hook, b"k" * 32, frozenset(TYPES), None)
            stores = store.stores if isinstance(store, sagas.StoreSet) else [store]
            hooks += [Webhooks([hook], each.deliveries, allow_local=True) for each in stores]
        self.hooks = hooks
        return store

    @contextlib.asynccontextmanager
    async def _context(self) -> AsyncIterator[types.SimpleNamespace]:
        id = secrets.token_hex(4)
        self.note(what="entered", context=id)
        try:
            yield types.SimpleNamespace(id=id)
        finally:
            self.note(what="left", context=id)

    async def run(self) -> None:
        """Do all of the work until SIGTERM."""
        while True:
            try:
                await self.store.__aenter__()
                break
            except (sagas.StoreUnavailable, sagas.StoreLocked):
                self.store = self._store()
                await asyncio.sleep(0.05)
        stopped = asyncio.Event()
        asyncio.get_running_loop().add_signal_handler(signal.SIGTERM, stopped.set)
        for hook in self.hooks:
            hook.begin()
        self.note(what="open", node=self.name)
        print("open", flush=True)
        works = [self._callers(), self._operator()]
        works += [self._worker()] if self.has("external") else []
        works += [self._bulk()] if self.has("label") else []
        works += [self._schedule()] if self.has("schedule") else []
        works += [self._pauses()] if self.has("pause") and self.name == "one" else []
        works += [self._erasures()] if self.has("erase") else []
        works += [self._drains()] if self.has("drain") and self.name != "three" else []
        tasks = [asyncio.create_task(work) for work in works]
        asking = asyncio.create_task(stopped.wait())
        while not asking.done():
            done, _ = await asyncio.wait([asking, *tasks], return_when=asyncio.FIRST_COMPLETED)
            for task in done - {asking}:
                tasks.remove(task)
                task.result()
        print("closing", flush=True)
        for task in tasks:
            task.cancel()
        for hook in self.hooks:
            await hook.end()
        await self.store.close()
        asyncio.get_running_loop().remove_signal_handler(signal.SIGTERM)

    async def _surely(self, ask: Callable[[], Awaitable[Any]]) -> Any:
        """Repeat a call until it succeeds."""
        while True:
            try:
                return await ask()
            except LATER:
                await asyncio.sleep(0.05)

    # -- callers

    async def _callers(self) -> None:
        numbers = list(range(self.settings.count))
        random.shuffle(numbers)
        slots = asyncio.Semaphore(12)

        async def start_in_turn(number: int) -> None:
            async with slots:
                await self._run_saga(number)

        if self.has("retention") and self.name == "one":
            await self._start_visas()
        await asyncio.gather(*map(start_in_turn, numbers))
        self.are_callers_done = True
        print("done", flush=True)

    async def _start_visas(self) -> None:
        """Start sagas whose approvals are given when the callers are done."""
        for number in range(self.settings.count, self.settings.count + VISAS):
            key, order = f"k{number}", order_of(number)
            if key not in self.finished:
                with contextlib.suppress(sagas.KeyConflict):  # it is erased
                    start, options = self.store.start, {"labels": labels_of(number)}
                    await self._surely(lambda: start(self.shop.visa, key, order, **options))
                    self.note(what="started", key=key)

    async def _run_saga(self, number: int) -> None:
        """Run a saga to its end, and report each reply to the witness once it arrives."""
        key, options = f"k{number}", dict[str, Any]()
        if key in self.finished:
            return
        saga = self.shop.main
        if self.shop.queue is not None and number % 3 == 0:
            saga = self.shop.post
        if self.has("deadline"):
            options["deadline"] = (0.2 + chance(f"{key}/deadline")) if is_short(number) else 600
        start, order = self.store.start, order_of(number)
        labels = labels_of(number)
        try:
            run = await self._surely(lambda: start(saga, key, order, labels=labels, **options))
        except sagas.KeyConflict:
            await self._find_erased(key)
            return
        self.note(what="started", key=key)
        others = [self._abort(key)] if number % 7 == 3 else []
        if self.has("early") and saga is self.shop.main:
            others.append(self._early(key))
        jobs = [asyncio.create_task(other) for other in others]
        with contextlib.suppress(sagas.NoSuchSaga):  # retention has deleted it
            end = await self._surely(run.wait)
            self._over(key, end)
            is_short_lived = self.has("deadline") and is_short(number)
            if self.has("restart") and saga is self.shop.main and not is_short_lived:
                await self._restart(key, end.phase)
        for job in jobs:
            await job

    async def _find_erased(self, key: str) -> None:
        """Get the end of an erased saga, whose input no start can be compared with."""
        with contextlib.suppress(sagas.NoSuchSaga):  # retention has deleted it
            end = await self._surely(lambda: self.store.wait(key))
            assert end.erased, key
            self._over(key, end)
        self.note(what="started", key=key)

    def _over(self, key: str, end: sagas.SagaResult) -> None:
        self.note(
            what="over",
            key=key,
            by=self.name,
            phase=end.phase,
            states=end.states,
            results=plain(end.results),
            aborted=end.aborted,
        )

    async def _restart(self, key: str, phase: str) -> None:
        """Start a saga that was undone again, from two callers, and wait for its end."""
        if phase != "recovered":
            return
        new = f"{key}x"
        works = [self._surely(lambda: self.store.restart(key, new)) for _ in range(2)]
        # the next release does not have it, one of the two is erased, or the old one was deleted
        # and started again since, so that the new one is a restart of another saga
        refusals = sagas.DefinitionError, sagas.NotRestartable, sagas.KeyConflict
        is_free = self.has("erase") or self.has("retention")
        with contextlib.suppress(*refusals if is_free else refusals[:1]):
            run, _ = await asyncio.gather(*works)
            self.note(what="started", key=new)
            self._over(new, await self._surely(run.wait))

    async def _abort(self, key: str) -> None:
        """Abort a saga from two callers at a random moment."""
        await asyncio.sleep(random.uniform(0.0, 0.6))
        for _ in range(2):
            with contextlib.suppress(sagas.NoSuchSaga, *LATER):
                if await self.store.abort(key, by=self.name):
                    self.note(what="aborted", key=key)

    async def _early(self, key: str) -> None:
        """Report a step, mostly before it starts."""
        value = {"paper": key}
        is_refused = chance(f"{key}/paper") < 0.1
        report: Callable[[], Awaitable[Any]] = lambda: self.store.complete(key, "paper", value)
        if is_refused:
            report = lambda: self.store.fail(key, "paper", "no paper")
        with contextlib.suppress(sagas.NoSuchSaga, sagas.ConflictError, sagas.InvalidError):
            await self._surely(report)
            result = None if is_refused else value
            self.note(what="early", key=key, step="paper", failed=is_refused, value=result)

    # -- schedules, operators, workers

    async def _schedule(self) -> None:
        order = {"mark": f"{MARK} of the schedule"}
        options: dict[str, Any] = {"every": EVERY, "catch_up": "all", "labels": {"by": "schedule"}}
        await self._surely(lambda: self.store.schedule("tick", self.shop.tick, order, **options))
        self.note(what="scheduled", name="tick")

    async def _pauses(self) -> None:
        """Pause a definition or everything for a time, until the faults are over.

        It first resumes what an earlier program has left paused.
        """
        while True:
            for pause in await self._surely(self.store.pauses):
                await self._resume(pause.saga)
            if self.is_quiet:
                return
            await asyncio.sleep(random.uniform(0.3, 1.0))
            saga, forward_only = random.choice((None, "main")), random.random() < 0.5
            options: dict[str, Any] = {"note": "a drill", "forward_only": forward_only}
            await self._surely(lambda: self.store.pause(saga, by=self.name, **options))
            self.note(what="paused", saga=saga, forward_only=forward_only)
            await asyncio.sleep(random.uniform(1.5, 2.5))

    async def _resume(self, saga: str | None) -> None:
        self.note(what="resuming", saga=saga)
        with contextlib.suppress(sagas.NoSuchPause):
            await self._surely(lambda: self.store.resume(saga))

    async def _erasures(self) -> None:
        """Erase ended sagas at random, some of them twice."""
        while True:
            await asyncio.sleep(random.uniform(0.05, 0.3))
            with contextlib.suppress(sagas.SagasError, psycopg.Error):
                phase = random.choice(("completed", "recovered", "resolved"))
                listed = await self.store.list(phase=phase, limit=1000)
                if keys := [summary.key for summary in listed if is_erasable(summary.key)]:
                    await self._erase(random.choice(keys))

    async def _erase(self, key: str) -> None:
        for _ in range(random.choice((1, 1, 2))):
            read = functools.partial(rows_of, self.settings.direct)
            blobs = await asyncio.to_thread(blobs_of, read, key)
            self.note(what="erasing", key=key)
            is_new = await self.store.erase(key, by=self.name)
            self.note(what="erased", key=key, new=is_new, blobs=blobs)

    async def _drains(self) -> None:
        """Drain a node by the command for a time, until the faults are over.

        It first ends the drains that an earlier program has left.
        """
        while True:
            for node in await self._surely(self.store.nodes):
                if node.drain is not None:
                    await self._command("undrain", node.name)
            if self.is_quiet:
                return
            await asyncio.sleep(random.uniform(0.1, 0.6))
            name = random.choice(("one", "two", "three"))
            if await self._command("drain", name, "--note", "a drill", "--by", self.name):
                self.note(what="drained", node=name)
            await asyncio.sleep(random.uniform(0.5, 2.5))

    async def _command(self, *arguments: str) -> bool:
        """Run `sagas store`; return whether it was done. Other programs may have undone it."""
        command = [sys.executable, "-m", "sagas", "store", self.settings.direct, *arguments]
        process = await asyncio.create_subprocess_exec(
            *command, stdout=subprocess.DEVNULL, stderr=subprocess.DEVNULL
        )
        try:
            return await process.wait() == 0
        finally:
            if process.returncode is None:
                process.kill()

    async def _bulk(self) -> None:
        """Abort all sagas of a label, and retry all sagas of another one."""
        await asyncio.sleep(random.uniform(0.2, 1.5))
        for word in random.sample(("abort", "retry"), 2):
            with contextlib.suppress(*LATER):
                if word == "abort":
                    outcome = await self.store.abort_all(labels={"lot": "1"}, by="bulk", timeout=3)
                    for key in outcome.done:
                        self.note(what="aborted", key=key, bulk=True)
                else:
                    done = await self.store.retry_all(labels={"lot": "2"})
                    self.note(what="retried", count=done)

    async def _operator(self) -> None:
        """Resolve at random what needs an operator."""
        while True:
            with contextlib.suppress(sagas.SagasError):
                for entry in await self.store.attention():
                    with contextlib.suppress(sagas.SagasError):
                        await self._answer(entry)
                if self.is_quiet and self.has("early"):
                    await self._report_late()
                if self.are_callers_done and self.has("retention"):
                    await self._approve()
            await asyncio.sleep(random.uniform(0.05, 0.3))

    async def _answer(self, entry: sagas.Attention) -> None:
        """Resolve one attempt as an operator; note each decision before and after the call."""
        if entry.step is None or entry.why in ("stuck", "undo_failed"):
            await self.store.resolve(entry.key, "an operator saw to it")
            self.note(what="resolved", key=entry.key)
            return
        word = "fail" if self._is_refused(entry) else random.choice(("retry", "retry", "complete"))
        if entry.why == "program_error":
            word = random.choice(("retry", "complete"))
        elif entry.why != "exhausted":
            word = "complete"
        value = {"operator": secrets.token_hex(3)}
        kind = "undo" if entry.undo else "run"
        report = {"key": entry.key, "step": entry.step, "kind": kind, "word": word, "value": value}
        self.note(what="answering", why=str(entry.why), **report)
        options: dict[str, Any] = {"undo": entry.undo, "by": self.name}
        if word == "retry":
            await self.store.retry(entry.key, entry.step, **options)
        elif word == "complete":
            await self.store.complete(entry.key, entry.step, value, **options)
        else:
            await self.store.fail(entry.key, entry.step, "an operator says no", **options)
        self.note(what="answered", **report)

    def _is_refused(self, entry: sagas.Attention) -> bool:
        """Return whether operators report that a step failed permanently.

        Operators never ask for another call of such a step. That call may have its effect before
        the report of an operator who looked earlier.
        """
        number = int("".join(filter(str.isdigit, entry.key.partition("/")[0])) or 0)
        is_retried = self.has("label") and number % 3 == 2
        return not is_retried and chance(f"{entry.key}/{entry.step}/refused") < 0.25

    async def _report_late(self) -> None:
        """Report the papers that no caller has reported."""
        for summary in await self.store.list(phase="open", saga="main"):
            with contextlib.suppress(sagas.ConflictError, sagas.InvalidError):
                value = {"late": summary.key}
                report = {"key": summary.key, "step": "paper", "kind": "run", "word": "complete"}
                self.note(what="answering", why="late", value=value, **report)
                await self.store.complete(summary.key, "paper", value)

    async def _approve(self) -> None:
        """Give the approvals for which sagas have waited."""
        for summary in await self.store.list(phase="open", saga="visa"):
            with contextlib.suppress(sagas.ConflictError, sagas.InvalidError):
                value = {"by": summary.key}
                report = {"key": summary.key, "step": "sign", "kind": "run", "word": "complete"}
                self.note(what="answering", why="approval", value=value, **report)
                await self.store.complete(summary.key, "sign", value)

    async def _worker(self) -> None:
        """Work on the tasks of this node, whichever node drives their sagas."""
        workers = self.store.workers
        while True:
            with contextlib.suppress(sagas.SagasError):  # another worker does it again
                for task in await workers.claim(EXTERNAL, limit=2, wait=0.2, lease=WORKER_LEASE):
                    report = await asyncio.to_thread(self._done, task.task)
                    await workers.report(task.attempt_id, task.lease, **report)
            await asyncio.sleep(0.01)

    def _done(self, task: Any) -> dict[str, Any]:
        """Return a worker's report of a task."""
        return reported(lambda: self.shop.act_in_thread(task, _external(task), 0.1, 0.1))


def _external(task: Any) -> str:
    """Return the name of the effect of a worker's task."""
    return f"main.0.far{'.undo' if task.is_compensation else ''}"


if __name__ == "__main__":
    logging.basicConfig(level=logging.WARNING, format="%(asctime)s %(name)s %(message)s")
    logging.getLogger("sagas").addFilter(is_unexpected)
    settings = Settings.read(sys.argv[1])
    setattr(sagas.definition.registry, "SHARD_CAPACITY", 10)
    if settings.wrong:
        features_wrong.VARIANTS[settings.wrong].apply()
    asyncio.run(Node(settings, sys.argv[2], int(sys.argv[3])).run())
    os._exit(0)
