"""Random definitions for hypothesis, as TOML texts of format 2."""

from __future__ import annotations

from dataclasses import dataclass

from hypothesis import strategies as st

NEVER = "never"


@dataclass(frozen=True)
class StepDraw:
    """A step of a random definition; it needs only steps before it."""

    name: str
    needs: tuple[int, ...]
    run: int | str
    undo: int | str
    skip: int | str
    keep: int | str
    tries: int
    undo_tries: int


def prices(nevers: int) -> st.SearchStrategy[int | str]:
    """Return costs that are often equal, 0 or `never`."""
    whole: st.SearchStrategy[int | str] = st.integers(0, 6)
    return st.one_of([whole] * (4 - nevers) + [st.just(NEVER)] * nevers)


@st.composite
def steps(draw: st.DrawFn, max_steps: int = 5) -> list[StepDraw]:
    """Return 1 to `max_steps` steps, which may need earlier ones."""
    count = draw(st.integers(1, max_steps))
    return [
        StepDraw(
            name=f"s{number}",
            needs=tuple(sorted(draw(st.sets(st.integers(0, number - 1), max_size=3))))
            if number
            else (),
            run=draw(prices(0)),
            undo=draw(prices(1)),
            skip=draw(prices(1)),
            keep=draw(prices(1)),
            tries=draw(st.integers(1, 3)),
            undo_tries=draw(st.integers(1, 2)),
        )
        for number in range(count)
    ]


def toml(name: str, drawn: list[StepDraw]) -> str:
    """Return the text of a definition."""

    def written(value: int | str) -> str:
        return f'"{value}"' if isinstance(value, str) else str(value)

    lines = ["format = 2", f'name = "{name}"']
    for step in drawn:
        lines += ["", "[[step]]", f'name = "{step.name}"']
        lines.append("needs = [" + ", ".join(f'"{drawn[need].name}"' for need in step.needs) + "]")
        lines += [
            f"{word} = {written(getattr(step, word))}" for word in ("run", "undo", "skip", "keep")
        ]
        lines += [f"tries = {step.tries}", f"undo_tries = {step.undo_tries}"]
    return "\n".join(lines) + "\n"
