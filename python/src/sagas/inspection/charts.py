"""Charts of trends: their series as SVG paths, which need no script.

A chart has no text within the picture, so that it can be stretched to any width. Its scale and
its times are texts around it.
"""

from __future__ import annotations

import dataclasses
import datetime
import html
import math
from collections.abc import Callable, Sequence

from sagas.base.wording import number
from sagas.core.trends import (
    COMPLETED,
    FAILED_STEPS,
    PERCENTILES,
    RECOVERED,
    STARTED,
    STUCK,
    TrendBucket,
    TrendRange,
    Trends,
)
from sagas.inspection.wording import span

HEIGHT, STEP = 100.0, 10.0
"""The height of a picture, and the width of a bucket, in units of its view box."""
GAP = 1.5
"""The space between two bars."""


@dataclasses.dataclass(frozen=True, slots=True)
class Series:
    """The values of a color: None if nothing was measured.

    Attributes:
        name: Its class in the style sheet.
        title: Its name in the legend.
        values: A value for each bucket.
        is_line: Whether it is a line, and not bars.
    """

    name: str
    title: str
    values: Sequence[float | None]
    is_line: bool = False


@dataclasses.dataclass(frozen=True, slots=True)
class Chart:
    """A chart as texts and a picture.

    Attributes:
        name: Its name in identifiers of the page.
        title: Its heading.
        series: What the legend lists.
        top: The text of the upper end of the scale.
        times: The times at the beginning, the middle and the end.
        description: What the chart shows, in words.
        svg: The picture, or None if nothing was counted.
    """

    name: str
    title: str
    series: Sequence[Series]
    top: str
    times: Sequence[str]
    description: str
    svg: str | None


def charts_of(trends: Trends) -> list[Chart]:
    """Return the charts: sagas, failed steps, durations, and the oldest task."""
    total, buckets = trends.total, trends.buckets

    def counted(name: str) -> list[float | None]:
        return [bucket.counts[name] for bucket in buckets]

    sagas = [Series(name, name, counted(name)) for name in (COMPLETED, RECOVERED, STUCK)] + [
        Series(STARTED, STARTED, counted(STARTED), is_line=True)
    ]
    counts = ", ".join(f"{total.counts[entry.name]:,} {entry.title}" for entry in sagas)
    durations = [
        Series(
            f"p{percent}", _ordinal(percent), [_of(bucket, position) for bucket in buckets], True
        )
        for position, percent in enumerate(PERCENTILES)
    ]
    took = "No saga ended."
    if total.durations is not None:
        parts = (f"{entry.title} {span(value)}" for entry, value in zip(durations, total.durations))
        took = f"Percentiles of the whole time: {', '.join(parts)}."
    oldest = [
        None if bucket.oldest_task is None else float(bucket.oldest_task) for bucket in buckets
    ]
    waited = "No task waited for a worker."
    if total.oldest_task is not None:
        waited = f"The oldest task waited for {span(total.oldest_task)}."
    failed = f"{number(total.counts[FAILED_STEPS], 'step')} failed permanently."
    return [
        _chart(trends, "sagas", "Sagas", sagas, _count, f"{counts.capitalize()}."),
        _chart(
            trends, "durations", "Duration of sagas", durations, span, took, is_logarithmic=True
        ),
        _chart(
            trends,
            "failures",
            "Failed steps",
            [Series(FAILED_STEPS, "failed permanently", counted(FAILED_STEPS))],
            _count,
            failed,
        ),
        _chart(
            trends,
            "oldest",
            "Oldest task",
            [Series("oldest", "waiting for a worker", oldest)],
            span,
            waited,
        ),
    ]


def _of(bucket: TrendBucket, position: int) -> float | None:
    return None if bucket.durations is None else bucket.durations[position]


def _ordinal(percent: int) -> str:
    return "median" if percent == 50 else f"{percent}th percentile"


def _count(value: float) -> str:
    return f"{value:,.0f}"


def _chart(
    trends: Trends,
    name: str,
    title: str,
    series: Sequence[Series],
    text: Callable[[float], str],
    description: str,
    is_logarithmic: bool = False,
) -> Chart:
    """Draw a chart. Bars of several series are on top of one another."""
    bars, lines = [entry for entry in series if not entry.is_line], [
        entry for entry in series if entry.is_line
    ]
    sums = [sum(values) for values in zip(*([v or 0.0 for v in entry.values] for entry in bars))]
    measured = [value for entry in lines for value in entry.values if value is not None]
    highest = max([*sums, *measured], default=0.0)
    top = max(1.0, top_of(highest)) if text is _count else top_of_seconds(highest)
    if is_logarithmic and measured:
        bottom = 10.0 ** math.floor(math.log10(max(min(measured), 1e-3)))
        top = max(10.0 ** math.ceil(math.log10(max(measured))), 10 * bottom)
        scale = logarithmic(bottom, top)
    else:
        scale = linear(top)
    times = times_of(trends.range, [bucket.at for bucket in trends.buckets])
    is_drawn = any(sums) or bool(measured) and any(value for value in measured)
    svg = _svg(name, title, description, bars, lines, scale) if is_drawn else None
    label = text(top)
    if is_logarithmic and svg:
        label = f"{text(bottom)} to {text(top)}, logarithmic"
    return Chart(name, title, series, label, times, description, svg)


# -- scales


Scale = Callable[[float], float]
"""Maps a value to a height in the picture, from 0 to `HEIGHT`."""


def linear(top: float) -> Scale:
    """Return the scale from 0 to `top`."""
    return lambda value: HEIGHT * min(1.0, value / top) if top else 0.0


def logarithmic(bottom: float, top: float) -> Scale:
    """Return the logarithmic scale from `bottom` to `top`."""
    length = math.log(top / bottom)
    return lambda value: HEIGHT * min(1.0, max(0.0, math.log(max(value, bottom) / bottom) / length))


DURATIONS = (10, 20, 30, 60, 120, 300, 600, 1800, 3600, 7200, 14_400, 43_200, 86_400)
"""Upper ends of scales in seconds. Below and above them are those of numbers."""


def top_of(value: float) -> float:
    """Return the upper end of a scale: 1, 2 or 5 times a power of ten, and at least `value`."""
    if value <= 0:
        return 1.0
    power = 10.0 ** math.floor(math.log10(value))
    return next(factor * power for factor in (1, 2, 5, 10) if factor * power >= value * (1 - 1e-9))


def top_of_seconds(value: float) -> float:
    """Return the upper end of a scale of seconds: a whole number of minutes, hours or days."""
    if value <= DURATIONS[0]:
        return top_of(value)
    longer = (seconds for seconds in DURATIONS if seconds >= value)
    return float(next(longer, 86_400 * top_of(value / 86_400)))


def times_of(kind: TrendRange, beginnings: Sequence[int]) -> tuple[str, str, str]:
    """Return the times (UTC) at the beginning, the middle and the end of a chart."""
    middle, end = beginnings[len(beginnings) // 2], beginnings[-1] + kind.width
    form = "%b %d" if kind is TrendRange.WEEK else "%H:%M"
    first, second, third = (
        datetime.datetime.fromtimestamp(at, datetime.timezone.utc).strftime(form)
        for at in (beginnings[0], middle, end)
    )
    return first, second, third


# -- paths


def bars_path(values: Sequence[float], below: Sequence[float], scale: Scale) -> str:
    """Return the path of bars, each on top of what is below it. A bar of 0 is left out."""
    parts = []
    for position, (value, base) in enumerate(zip(values, below)):
        if value <= 0:
            continue
        low, high = HEIGHT - scale(base), HEIGHT - scale(base + value)
        left, width = position * STEP + GAP / 2, STEP - GAP
        parts.append(f"M{left:g} {low:.2f}V{high:.2f}h{width:g}V{low:.2f}z")
    return "".join(parts)


def line_path(values: Sequence[float | None], scale: Scale) -> str:
    """Return the path of a line. It is interrupted where a value is missing.

    A value without a neighbor is a line as long as its bucket.
    """
    parts, is_pen_down = [], False
    for position, value in enumerate(values):
        if value is None:
            is_pen_down = False
            continue
        y = HEIGHT - scale(value)
        has_next = values[position + 1 : position + 2] not in ([None], [])
        if is_pen_down or has_next:
            parts.append(f"{'L' if is_pen_down else 'M'}{(position + 0.5) * STEP:g} {y:.2f}")
        else:
            parts.append(f"M{position * STEP + GAP / 2:g} {y:.2f}h{STEP - GAP:g}")
        is_pen_down = True
    return "".join(parts)


def _svg(
    name: str,
    title: str,
    description: str,
    bars: Sequence[Series],
    lines: Sequence[Series],
    scale: Scale,
) -> str:
    width = STEP * len((*bars, *lines)[0].values)
    parts = [
        f'<svg viewBox="0 0 {width:g} {HEIGHT:g}" preserveAspectRatio="none" role="img" '
        f'aria-labelledby="chart-{name}-title chart-{name}-desc">'
        f'<title id="chart-{name}-title">{html.escape(title)}</title>'
        f'<desc id="chart-{name}-desc">{html.escape(description)}</desc>'
        f'<path class="grid" d="M0 {HEIGHT / 2:g}H{width:g}M0 0H{width:g}M0 {HEIGHT:g}H{width:g}"/>'
    ]
    below = [0.0] * len((*bars, *lines)[0].values)
    for entry in bars:
        values = [value or 0.0 for value in entry.values]
        parts.append(f'<path class="bars of-{entry.name}" d="{bars_path(values, below, scale)}"/>')
        below = [base + value for base, value in zip(below, values)]
    for entry in lines:
        parts.append(f'<path class="line of-{entry.name}" d="{line_path(entry.values, scale)}"/>')
    return "".join([*parts, "</svg>"])
