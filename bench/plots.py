#!/usr/bin/env python3
"""Draw the plots of docs/concepts/performance.md from the files in bench/results.

    bench/plots.py            writes docs/pictures/speed-*.svg
    bench/plots.py --check    compares them with the files; status 1 if one differs
"""

from __future__ import annotations

import csv
import sys
from pathlib import Path

TOP = Path(__file__).resolve().parent.parent
RESULTS, PICTURES = TOP / "bench/results", TOP / "docs/pictures"
OPEN = (1, 16, 256, 1000)
COLORS = ("#1f5fbf", "#c05621", "#3d8b4e")
WIDTH, HEIGHT, LEFT, BOTTOM, TOP_SPACE = 640, 320, 60, 40, 30

Series = dict[str, list[float]]


def read(name: str) -> dict[tuple[str, str], float]:
    """Return the medians of a file of results, by measurement and condition."""
    lines = (RESULTS / f"{name}.csv").read_text(encoding="utf-8").splitlines()
    rows = csv.DictReader(line for line in lines if not line.startswith("#"))
    return {(r["measurement"], r["condition"]): float(r["median"]) for r in rows if r["median"]}


def sqlite() -> Series:
    """Return sagas a second over SQLite. The results have ratios of the ways by hand."""
    medians = read("2026-11-27-sqlite")

    def values(measurement: str) -> list[float]:
        return [medians[measurement, f"{at} open"] for at in OPEN]

    sagas = values("sagas")
    each = values("sagas compared with a commit for each change")
    shared = values("sagas compared with shared commits")
    return {
        "sagas": sagas,
        "a commit for each change, by hand": [a / b for a, b in zip(sagas, each)],
        "shared commits, by hand": [a / b for a, b in zip(sagas, shared)],
    }


def postgresql() -> Series:
    """Return sagas a second over PostgreSQL."""
    medians = read("2026-11-27-postgresql")
    names = {
        "sagas": "sagas",
        "a commit for each change by hand": "a commit for each change, by hand",
        "shared commits by hand": "shared commits, by hand",
    }
    return {shown: [medians[name, f"{at} open"] for at in OPEN] for name, shown in names.items()}


def drawn(title: str, series: Series) -> str:
    """Return a plot: a line for each series, over the number of open sagas."""
    maximum = max(value for values in series.values() for value in values)
    unit = 2000 if maximum > 4000 else 500
    top = (int(maximum / unit) + 1) * unit

    def x(position: int) -> float:
        return LEFT + 40 + position * (WIDTH - LEFT - 80) / (len(OPEN) - 1)

    def y(value: float) -> float:
        return HEIGHT - BOTTOM - value * (HEIGHT - BOTTOM - TOP_SPACE) / top

    parts = [
        f'<svg xmlns="http://www.w3.org/2000/svg" viewBox="0 0 {WIDTH} {HEIGHT}" '
        f'width="{WIDTH}" height="{HEIGHT}" font-family="Helvetica, Arial, sans-serif" '
        'font-size="12">',
        f"<title>{title}</title>",
        '<rect width="100%" height="100%" fill="#ffffff"/>',
        f'<text x="{LEFT}" y="18" font-size="13">{title}</text>',
    ]
    for value in range(0, top + 1, unit):
        parts.append(
            f'<line x1="{LEFT}" x2="{WIDTH - 20}" y1="{y(value):.1f}" y2="{y(value):.1f}" '
            f'stroke="#dddddd"/><text x="{LEFT - 6}" y="{y(value) + 4:.1f}" text-anchor="end">'
            f"{value:,}</text>"
        )
    for position, at in enumerate(OPEN):
        parts.append(
            f'<text x="{x(position):.1f}" y="{HEIGHT - 18}" text-anchor="middle">{at:,} open</text>'
        )
    for number, (name, values) in enumerate(series.items()):
        color, line = COLORS[number], " ".join(
            f"{x(i):.1f},{y(v):.1f}" for i, v in enumerate(values)
        )
        parts.append(f'<polyline points="{line}" fill="none" stroke="{color}" stroke-width="2"/>')
        parts += [
            f'<circle cx="{x(i):.1f}" cy="{y(v):.1f}" r="3" fill="{color}"/>'
            for i, v in enumerate(values)
        ]
        parts.append(
            f'<text x="{LEFT + 50}" y="{TOP_SPACE + 16 + 16 * number}" fill="{color}">{name}</text>'
        )
    return "\n".join([*parts, "</svg>", ""])


def main() -> int:
    """Draw the plots, or compare them; return the exit status."""
    plots = {
        "speed-sqlite.svg": drawn("Sagas a second, SQLite", sqlite()),
        "speed-postgresql.svg": drawn("Sagas a second, PostgreSQL", postgresql()),
    }
    wrong = 0
    for name, text in plots.items():
        path = PICTURES / name
        if sys.argv[1:] != ["--check"]:
            path.write_text(text, encoding="utf-8")
        elif not path.exists() or path.read_text(encoding="utf-8") != text:
            wrong += 1
            print(f"another plot: {path.relative_to(TOP)}; run bench/plots.py")
    return 1 if wrong else 0


if __name__ == "__main__":
    sys.exit(main())
