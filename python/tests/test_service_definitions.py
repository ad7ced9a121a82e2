"""Errors in the service's definition files are reported with file and line of the TOML."""

from __future__ import annotations

import pathlib

import pytest

import sagas
from sagas.definition import definition_files
from sagas.definition.definition_files import LineNumbers

GOOD = """# a trip
format = 2
name = "trip"

[[step]]
name = "car"
needs = [  # "hotel",
]
undo = 5

[[step]]
name = "review"
needs = ["car"]
tries = 9
"""
SERVICE_FILE = """# next to it
[step.review]
kind = "approval"
timeout = 60

[step.car]
backoff = { initial = 1, maximum = 60 }
concurrency = 4
"""
FAULTS = [
    (
        GOOD.replace("\n\n[[step]]", "\n[defaults]\ntries = 3\ntimeout = 3\n\n[[step]]", 1),
        SERVICE_FILE,
        "a.toml:6: defaults has only the keys backoff, max_unknown, on_exhausted, tries",
    ),
    (
        GOOD.replace("\n\n[[step]]", "\n[defaults]\ntries = 0\n\n[[step]]", 1),
        SERVICE_FILE,
        "a.toml:5: saga 'trip': tries=0: must be an integer from 1 to",
    ),
    (
        GOOD.replace('"trip"', '"Trip"'),
        SERVICE_FILE,
        "a.toml:3: saga 'Trip': invalid name: use 1 to 32 characters a-z",
    ),
    (
        GOOD.replace("format = 2", "format = 3"),
        SERVICE_FILE,
        "a.toml:2: invalid definition: a definition has the keys format (1 or 2), name and step",
    ),
    (
        GOOD + "price = 1\n",
        SERVICE_FILE,
        "a.toml:15: invalid definition: step 'review' has no key 'price'",
    ),
    (
        GOOD.replace("format", "author = 1\nformat"),
        SERVICE_FILE,
        "a.toml:2: invalid definition: a definition has the keys",
    ),
    (
        GOOD.replace('name = "trip"\n', ""),
        SERVICE_FILE,
        "a.toml:1: invalid definition: it has no name",
    ),
    (
        GOOD.replace('name = "car"\n', ""),
        SERVICE_FILE,
        "a.toml:5: invalid definition: step 1 has no name",
    ),
    (
        GOOD.replace('name = "car"', "name = 5"),
        SERVICE_FILE,
        "a.toml:6: invalid definition: step 1 has no name",
    ),
    (
        GOOD.replace('name = "car"', 'name = "a car"'),
        SERVICE_FILE,
        "a.toml:6: saga 'trip', step 'a car': invalid name: use 1 to 32",
    ),
    (
        GOOD.replace("undo = 5", "undo = -5"),
        SERVICE_FILE,
        "a.toml:9: saga 'trip', step 'car': undo=-5: must be an integer",
    ),
    (
        GOOD.replace("undo = 5", 'undo = "nevr"'),
        SERVICE_FILE,
        "a.toml:9: saga 'trip', step 'car': undo='nevr': must be",
    ),
    (
        GOOD.replace("tries = 9", "tries = 10"),
        SERVICE_FILE,
        "a.toml:14: invalid definition: step 'review': tries must be an integer from 1 to 9",
    ),
    (
        GOOD.replace('needs = ["car"]', 'needs = "car"'),
        SERVICE_FILE,
        "a.toml:13: saga 'trip', step 'review': needs='car': must be a list",
    ),
    (
        GOOD.replace('needs = ["car"]', 'needs = ["cr"]'),
        SERVICE_FILE,
        "a.toml:11: saga 'trip', step 'review': needs unknown step 'cr'",
    ),
    (
        GOOD.replace('[  # "hotel",', '[ "review",'),
        SERVICE_FILE,
        "a.toml:5: saga 'trip', step 'car': is in a cycle of needs",
    ),
    (
        GOOD.replace('"review"', '"car"'),
        SERVICE_FILE.replace("step.review", "step.car2"),
        "a.toml:12: saga 'trip', step 'car': another step has this name",
    ),
    (
        GOOD + "keep = 7\n",
        SERVICE_FILE,
        "a.toml:15: step 'review': an approval cannot have run or keep",
    ),
    (GOOD.replace("undo = 5", "undo = "), SERVICE_FILE, "a.toml:9: invalid TOML: Invalid value"),
    (
        GOOD.replace("tries = 9\n", "tries ="),
        SERVICE_FILE,
        "a.toml:14: invalid TOML: Invalid value",
    ),
    (
        'format = 2\nname = "trip"\nstep = [{ name = "car", price = 1 }]\n',
        "",
        "a.toml:3: invalid definition: step 'car' has no key 'price'",
    ),
    ('format = 2\n\nname = "trip"\n', "", "a.toml:3: saga 'trip': it has no step"),
    (
        GOOD,
        SERVICE_FILE + "[other]\n",
        "a.service.toml:9: only [step.NAME] tables and [on_end] are allowed",
    ),
    (
        GOOD,
        SERVICE_FILE.replace("approval", "aproval"),
        "a.service.toml:3: step 'review': kind must be one of work, approval, wait",
    ),
    (
        GOOD,
        SERVICE_FILE.replace("timeout = 60", "until = 60"),
        "a.service.toml:4: step 'review': approval has no key 'until'; its keys are kind, "
        "optional, show, timeout",
    ),
    (
        GOOD,
        SERVICE_FILE.replace("timeout = 60", "timeout = -1"),
        "a.service.toml:4: step 'review': timeout must be a number from 0 to 100,000,000,000",
    ),
    (
        GOOD,
        SERVICE_FILE.replace("timeout = 60", "timeout = inf"),
        "a.service.toml:4: step 'review': timeout must be a number from 0 to 100,000,000,000",
    ),
    (
        GOOD,
        SERVICE_FILE.replace("timeout = 60", "timeout = 0"),
        "a.service.toml:4: saga 'trip', step 'review': timeout=datetime.timedelta(0): must be",
    ),
    (
        GOOD,
        SERVICE_FILE.replace("initial", "intial"),
        (
            "a.service.toml:7: step 'car': backoff must have only the keys initial, jitter,"
            " maximum, multiplier, each with a number"
        ),
    ),
    (
        GOOD,
        SERVICE_FILE.replace("initial = 1", "initial = -1"),
        "a.service.toml:7: saga 'trip', step 'car': Backoff(initial=-1",
    ),
    (
        GOOD,
        SERVICE_FILE.replace("initial = 1", 'initial = "1"'),
        (
            "a.service.toml:7: step 'car': backoff must have only the keys initial, jitter,"
            " maximum, multiplier, each with a number"
        ),
    ),
    (
        GOOD,
        SERVICE_FILE.replace("concurrency = 4", "concurrency = 0"),
        "a.service.toml:8: saga 'trip', step 'car': concurrency=0: must be an integer >= 1",
    ),
    (
        GOOD,
        SERVICE_FILE.replace("step.car", "step.cra"),
        "a.service.toml:6: the definition has no step 'cra'",
    ),
    (
        GOOD,
        SERVICE_FILE.replace('kind = "approval"\ntimeout = 60', 'kind = "wait"'),
        "a.service.toml:2: step 'review': kind 'wait' requires the key until",
    ),
    (
        GOOD,
        SERVICE_FILE.replace("concurrency = 4", "concurrency = "),
        "a.service.toml:8: invalid TOML: Invalid value",
    ),
]


@pytest.mark.parametrize("text, service_file, says", FAULTS)
def test_a_fault_has_its_line(
    tmp_path: pathlib.Path, text: str, service_file: str, says: str
) -> None:
    """It is the line of its own file; never a line of the package."""
    (tmp_path / "a.toml").write_text(text)
    (tmp_path / "a.service.toml").write_text(service_file)
    with pytest.raises(sagas.DefinitionError) as fault:
        definition_files.read(tmp_path)
    assert str(fault.value).startswith(f"{tmp_path}/{says}"), str(fault.value)
    assert ".py" not in str(fault.value)


def test_defaults_are_those_of_steps_and_compensations(tmp_path: pathlib.Path) -> None:
    """They are no part of the definition: its numbers of attempts are what it then has."""
    defaults = """
[defaults]
tries = 4
backoff = { initial = 5 }
max_unknown = 3
on_exhausted = "ask"
"""
    (tmp_path / "a.toml").write_text(GOOD.replace('"trip"\n', '"trip"\n' + defaults))
    (tmp_path / "a.service.toml").write_text(
        SERVICE_FILE + 'on_exhausted = "fail"\nmax_unknown = 7\n'
    )
    car, review = definition_files.read_one(tmp_path / "a.toml").steps
    assert (car.run.tries, car.undo.tries, review.run.tries) == (4, 4, 9)
    assert (car.run.max_unknown, car.undo.max_unknown) == (7, 7)
    assert (car.run.on_exhausted, car.undo.on_exhausted) == ("fail", "ask")
    assert car.run.backoff == sagas.Backoff(maximum=60)  # of its own
    assert review.run.backoff == sagas.Backoff(initial=5)


def test_attempts_of_the_service_file(tmp_path: pathlib.Path) -> None:
    """They count before those of the definition, which has at most 9; the default is 10."""
    (tmp_path / "a.toml").write_text(GOOD)
    more = 'tries = 20\nundo_tries = 1000\nmax_unknown = "unlimited"\n'
    (tmp_path / "a.service.toml").write_text(SERVICE_FILE + more)
    car, _ = definition_files.read_one(tmp_path / "a.toml").steps
    assert (car.run.tries, car.undo.tries, car.run.max_unknown) == (20, 1000, None)
    assert car.saga.toml().count("tries = 2\n") == 2  # `undo_tries` is one of them
    (tmp_path / "a.service.toml").write_text(SERVICE_FILE)
    car, _ = definition_files.read_one(tmp_path / "a.toml").steps
    assert (car.run.tries, car.undo.tries, car.run.max_unknown) == (10, 10, 10)
    for line, text in (
        ("max_unknown = 0", "max_unknown must be an integer >= 1, or 'unlimited'"),
        ("tries = 1001", "tries=1001 of its function: must be an integer from 1 to 1,000"),
    ):
        (tmp_path / "a.service.toml").write_text(f"{SERVICE_FILE}{line}\n")
        with pytest.raises(sagas.DefinitionError, match=text):
            definition_files.read_one(tmp_path / "a.toml")


def test_valid_files(tmp_path: pathlib.Path) -> None:
    """It is read; its warnings have their lines as well, and two of one name and version
    name both.
    """
    (tmp_path / "a.toml").write_text(GOOD.replace("undo = 5", "undo = 5\nkeep = 1"))
    (tmp_path / "a.service.toml").write_text(SERVICE_FILE)
    (saga,) = definition_files.read(tmp_path)
    assert [step.name for step in saga.steps] == ["car", "review"] and saga.steps[
        0
    ].concurrency == 4
    (warning,) = saga.warnings()
    assert warning.startswith(
        f"{tmp_path}/a.toml:5: saga 'trip', step 'car': the compensation can never be called"
    )
    (tmp_path / "b.toml").write_text(GOOD)
    with pytest.raises(sagas.DefinitionError) as fault:
        definition_files.read(tmp_path)
    remedy = "use another name, or `# version 2` as the first line"
    message = f"{tmp_path}/b.toml:3: saga 'trip' is already defined at {tmp_path}/a.toml; {remedy}"
    assert str(fault.value) == message


ODD = '''# version 2
name = "trip" # [[step]]
undo = """
[[step]]
x = 1
"""
[[ "step" ]]
"name" = 'b # no'
needs = [  # "x"
  "b", # ]
  {c = 1,
   d = [']']},
]
[step.more]
y.z = 5
[[step]]
name = "c\\"]"
'''
ERROR_LINES = [
    ((), 1),
    (("name",), 2),
    (("undo",), 3),
    (("step", 0), 7),
    (("step", 0, "name"), 8),
    (("step", 0, "needs"), 9),
    (("step", 0, "more"), 14),
    (("step", 0, "more", "y"), 15),
    (("step", 0, "more", "y", "z"), 15),
    (("step", 1), 16),
    (("step", 1, "name"), 17),
    (("step", 1, "none"), 16),
    (("none",), 1),
]


@pytest.mark.parametrize("path, line", ERROR_LINES)
def test_lines_of_odd_texts(path: tuple[str | int, ...], line: int) -> None:
    """Brackets and headers within strings and comments do not count; an item without its own line
    has that of its parent.
    """
    assert LineNumbers(ODD).of(*path) == line
