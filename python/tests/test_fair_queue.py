"""The threads of a service are shared by who asks, by what the work of each costs."""

from __future__ import annotations

import asyncio
import threading
import time

from hypothesis import given, strategies as st

from sagas.server.threads import (
    CURRENT_CLIENT,
    LONG,
    MAX_REST,
    REST,
    ComputingTime,
    FairQueue,
    Pool,
)


def done(queue: FairQueue[str], name: str, seconds: float, computed: float = 0.0) -> None:
    queue.done(name, seconds, computed, 0.0)


def test_each_has_the_same_time() -> None:
    """A maker has much work that takes long, and one has little: that with least time is next."""
    queue: FairQueue[str] = FairQueue(1, ComputingTime())
    for number in range(100):
        queue.put("evil", f"e{number}", 0.0)
    order = []
    for number in range(20):
        queue.put("other", f"o{number}", 0.0)
    for _ in range(40):
        item = queue.take(0.0)
        assert item and queue.take(0.0) is None
        order.append(item[0])
        done(queue, item[0], 1.0 if item[0] == "evil" else 0.1)
    assert order.count("other") == 20 and order.index("other") <= 1
    assert "evil" in order[3:15]  # and it is not starved either


def test_who_takes_long_leaves_a_thread() -> None:
    """To the others, also where it came first; where each piece is short, it may have all."""
    queue: FairQueue[str] = FairQueue(3, ComputingTime())
    for _ in range(10):
        queue.put("evil", "e", 0.0)
        queue.put("quick", "q", 0.0)
    taken = [item[0] for _ in range(3) if (item := queue.take(0.0))]
    for name in taken:
        done(queue, name, 1.0 if name == "evil" else LONG / 100)
    while (item := queue.take(0.0)) and item[0] == "quick":
        done(queue, "quick", LONG / 100)
    assert item and item[0] == "evil"  # no other is left
    assert queue.take(0.0) and queue.take(0.0) is None
    queue.put("other", "o", 0.0)
    assert queue.take(0.0) == ("other", "o")


def test_who_computes_has_one_thread_of_all() -> None:
    """Of two kinds of threads, until that is over."""
    computing = ComputingTime()
    reads: FairQueue[str] = FairQueue(2, computing)
    answers: FairQueue[str] = FairQueue(2, computing)
    for queue in (reads, answers):
        queue.put("evil", "e0", 0.0)
        assert queue.take(0.0)
        queue.done("evil", 1.0, 1.0, 0.0)
        queue.put("evil", "e1", 0.0)
        queue.put("evil", "e2", 0.0)
    assert reads.take(0.0) == ("evil", "e1") and answers.take(0.0) is None is reads.take(0.0)
    answers.put("other", "o", 9.0)
    assert answers.take(0.0) == ("other", "o")
    reads.done("evil", 1.0, 1.0, 10.0)
    assert answers.take(0.0) == ("evil", "e1")


def test_who_computes_rests_while_others_are_active() -> None:
    """A rest is in proportion to what was computed. A maker that is alone does not rest."""
    queue: FairQueue[str] = FairQueue(2, ComputingTime())

    def run(name: str, began: float, computed: float) -> None:
        queue.put(name, "job", began)
        assert queue.take(began) == (name, "job")
        queue.done(name, computed, computed, began + computed)

    for number in range(3):
        run("evil", number, 0.5)
    run("other", 3.9, LONG / 10)
    run("evil", 4.0, 0.5)
    queue.put("evil", "late", 4.5)
    assert queue.take(4.5) is None and queue.next_take(4.5) == 4.5 + 0.5 * REST
    run("other", 4.6, LONG / 10)
    assert queue.take(4.5 + 0.5 * REST) == ("evil", "late") and queue.next_take(6.0) is None
    queue.put("other", "o", 9.5)
    queue.done("evil", 5.0, 5.0, 10.0)
    queue.put("evil", "last", 10.0)
    assert queue.take(10.0) == ("other", "o") and queue.take(10.0) is None
    assert queue.next_take(10.0) == 10.0 + MAX_REST


def test_a_pool_continues_after_a_rest() -> None:
    """Without another request that would make it look."""

    async def main() -> None:
        pool = Pool("trial", [], ComputingTime(), count=1)

        def compute() -> str:
            end = time.thread_time() + 2 * LONG
            while time.thread_time() < end:
                pass
            return CURRENT_CLIENT.get()

        def ask(maker: str) -> asyncio.Task[str]:
            CURRENT_CLIENT.set(maker)
            return asyncio.ensure_future(pool.do(compute))

        await asyncio.gather(*(ask(maker) for maker in ("evil", "other") * 5))
        pool.close()

    asyncio.run(asyncio.wait_for(main(), 60))


MAKERS = st.sampled_from("abcd")


@given(st.lists(st.tuples(MAKERS, st.floats(0.0, 1.0)), max_size=60), st.integers(1, 3))
def test_all_is_done_in_order(jobs: list[tuple[str, float]], threads: int) -> None:
    """All work is taken once, that of each maker in its order, by no more threads than exist."""
    queue: FairQueue[tuple[int, float]] = FairQueue(threads, ComputingTime())
    now = 0.0
    for number, (name, seconds) in enumerate(jobs):
        queue.put(name, (number, seconds), 0.0)
    running: list[tuple[str, float]] = []
    order: dict[str, list[int]] = {}
    while True:
        while item := queue.take(now):
            name, (number, seconds) = item
            order.setdefault(name, []).append(number)
            running.append((name, seconds))
        assert len(running) <= threads
        if not running:
            if (moment := queue.next_take(now)) is None:
                break
            now = moment
            continue
        name, seconds = running.pop(0)
        now += seconds
        queue.done(name, seconds, seconds, now)
    assert sum(map(len, order.values())) == len(jobs)
    assert all(numbers == sorted(numbers) for numbers in order.values())


def test_a_pool() -> None:
    """Many pieces of one maker hold up one of another for no more than one of them; what raises, or
    is not waited for any more, holds up nothing."""

    async def main() -> None:
        pool = Pool("trial", [], ComputingTime(), count=1)
        may, order = threading.Event(), list[str]()

        def work(name: str) -> str:
            may.wait(60)
            order.append(name)
            time.sleep(0.02)
            if name == "raises":
                raise ValueError(name)
            return name

        def ask(maker: str, name: str) -> asyncio.Task[str]:
            CURRENT_CLIENT.set(maker)
            return asyncio.ensure_future(pool.do(lambda: work(name)))

        evil = [ask("evil", f"e{number}") for number in range(30)]
        raises, gone, other = ask("r", "raises"), ask("g", "gone"), ask("other", "o")
        await asyncio.sleep(0)
        gone.cancel()
        may.set()
        assert await other == "o"
        assert len(order) <= 4
        item = await asyncio.gather(*evil, raises, gone, return_exceptions=True)
        assert isinstance(item[-2], ValueError) and isinstance(item[-1], asyncio.CancelledError)
        assert "gone" not in order
        pool.close()

    asyncio.run(asyncio.wait_for(main(), 60))
