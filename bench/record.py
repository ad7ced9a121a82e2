"""Measure what a record costs: processor time of a node over PostgreSQL, with and without one.

    PYTHONPATH=python/src python3 bench/record.py [--turns N] [--at 1,16,256] [--sagas N]

One program opens two stores over one server. One of them has a record. It runs sagas of three
steps in one store and then in the other, N at once, and compares the processor time of the two
turns, including system time. In odd turns the store with the record is first.
"""

from __future__ import annotations

import argparse
import asyncio
import pathlib
import statistics
import sys
import tempfile
import time

sys.path.insert(0, str(pathlib.Path(__file__).resolve().parents[1] / "python" / "tests"))

from server import Server, serving  # noqa: E402

import sagas  # noqa: E402

NAMES = ("no record", "a record")


def three() -> sagas.Saga:
    """Make a saga of three steps in a row, which do nothing."""
    kind = sagas.Saga("three")

    async def work(task: sagas.Task[object]) -> None:
        pass

    first = kind.step(name="a")(work)
    second = kind.step(name="b", needs=[first])(work)
    kind.step(name="c", needs=[second])(work)
    return kind


async def some(store: sagas.Store, kind: sagas.Saga, name: str, at: int, count: int) -> float:
    """Run `count` sagas, `at` at once; return milliseconds of the processor for each."""

    async def run_lane(lane: int) -> None:
        for number in range(count // at):
            assert (await (await store.start(kind, f"{name}-{lane}-{number}")).wait()).ok

    began = time.process_time()
    await asyncio.gather(*(run_lane(lane) for lane in range(at)))
    return 1000 * (time.process_time() - began) / (count // at * at)


async def turns(server: Server, at: int, count: int, number: int) -> dict[str, list[float]]:
    """Return the times of each store in all turns."""
    times_by_name: dict[str, list[float]] = {name: [] for name in NAMES}
    with tempfile.TemporaryDirectory() as folder:
        files = {"no record": None, "a record": pathlib.Path(folder) / "record"}
        kinds = {name: three() for name in NAMES}
        opened = {
            name: sagas.open(
                server.create(),
                [kinds[name]],
                concurrency=max(16, at),
                record=files[name],
                lease=600,
            )
            for name in NAMES
        }
        async with opened["no record"], opened["a record"]:
            for turn in range(-1, number):
                for name in NAMES if turn % 2 == 0 else NAMES[::-1]:
                    took = await some(opened[name], kinds[name], f"t{turn}", at, count)
                    if turn >= 0:  # the first one warms it up
                        times_by_name[name].append(took)
    return times_by_name


def row(measurement: str, values: list[float], unit: str) -> None:
    """Print a row: the median, the lowest and the highest value."""
    cells = (statistics.median(values), min(values), max(values))
    shown = ",".join(f"{cell:.4f}" for cell in cells)
    print(f"{measurement},{shown},{unit}", flush=True)


def main() -> None:
    """Run the command."""
    parser = argparse.ArgumentParser(
        description=__doc__, formatter_class=argparse.RawDescriptionHelpFormatter
    )
    parser.add_argument("--turns", type=int, default=30)
    parser.add_argument("--at", default="1,16,256")
    parser.add_argument(
        "--sagas", type=int, default=256, help="of a turn; an eighth of that for one open saga"
    )
    options = parser.parse_args()
    with serving({"fsync": "off"}) as server:
        print("measurement,condition,median,low,high,unit")
        for at in map(int, options.at.split(",")):
            count = options.sagas if at > 1 else max(1, options.sagas // 8)
            times_by_name = asyncio.run(turns(server, at, count, options.turns))
            for name, times in times_by_name.items():
                row(f"processor time of a node,{at} open; {name}", times, "ms a saga")
            ratios = [
                with_record / without
                for with_record, without in zip(
                    times_by_name["a record"], times_by_name["no record"]
                )
            ]
            row(f"a record compared with none,{at} open", ratios, "times")


if __name__ == "__main__":
    main()
