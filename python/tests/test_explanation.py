"""`sagas explain` and `explain`: what each failure of a saga would lead to, before it runs."""

from __future__ import annotations

import json
import pathlib
from typing import Any

import pytest
from cases import run
from definitions import StepDraw, steps, toml
from hypothesis import HealthCheck, given, settings
from serving import command

import sagas
import sagas.testing
from sagas.definition.definition_text import digest_of
from sagas.engine.planner import PlanningStopped
from sagas.inspection import explanation
from sagas.server.explanations import Explanations

Task = sagas.Task[Any]
FEW = settings(max_examples=25, deadline=None, suppress_health_check=list(HealthCheck))
HOUR = sagas.Backoff(initial=3600.0, maximum=3600.0, jitter=0.0)


def trip() -> sagas.Saga[Any]:
    """Return a saga with a step that cannot be undone."""
    saga: sagas.Saga[Any] = sagas.Saga("trip")

    @saga.step(undo=sagas.NEVER)
    def flight(task: Task) -> None:
        ...

    @saga.step(needs=[flight], undo=5, keep=30)
    def car(task: Task) -> None:
        ...

    @car.compensation
    def cancel_car(task: Task) -> None:
        ...

    @saga.step(needs=[flight], undo=sagas.NEVER, keep=3)
    def hotel(task: Task) -> None:
        ...

    @saga.step(needs=[car, hotel], skip=10)
    def tour(task: Task) -> None:
        ...

    return saga


def test_the_first_lines_of_a_user() -> None:
    explanation = sagas.explain(trip(), rates={"hotel": 0.1, "tour": 0.02})
    assert str(explanation) == TRIP
    assert str(explanation.failure("hotel")) == "undo car, keep flight, skip tour"
    assert explanation.failure("hotel", moment="early").cost == 10
    assert explanation.point_of_no_return == ("flight",)
    assert explanation.worst is explanation.failure("tour")
    plan = explanation.failure("hotel").plan
    assert plan and plan.check() == "least 15"


TRIP = """\
FAILS   WHEN   COST  WHAT HAPPENS
flight  -        10  skip car, hotel and tour
car     late     13  keep flight and hotel, skip tour
car     early    10  keep flight, skip hotel and tour
hotel   late     15  undo car, keep flight, skip tour
hotel   early    10  keep flight, skip car and tour
tour    -        18  undo car, keep flight and hotel

late: each step that does not depend on the failed one has committed
early: only the steps that it needs have committed
point of no return: flight
never undone: flight, hotel and tour
stuck: no failure of one or two steps
worst case: cost 18, if tour fails

rates of failure: hotel 10 %, tour 2 %
sagas (late): 88.2 % complete, 11.8 % recover; expected cost of a saga: 1.824
sagas (early): 88.2 % complete, 11.8 % recover; expected cost of a saga: 1.324
a better order: let car need hotel: expected cost 1.324 instead of 1.824"""


def pivoted() -> sagas.Saga[Any]:
    """Return a saga with a pivot, and with an optional step."""
    saga: sagas.Saga[Any] = sagas.Saga("order", order="declared")

    @saga.step
    def reserve(task: Task) -> None:
        ...

    @reserve.compensation
    def release(task: Task) -> None:
        ...

    @saga.step(pivot=True)
    def charge(task: Task) -> None:
        ...

    @saga.step(optional=True)
    def mail(task: Task) -> None:
        ...

    @saga.step
    def ship(task: Task) -> None:
        ...

    return saga


PIVOTED = """\
FAILS    WHEN  WHAT HAPPENS
reserve  -     skip charge, mail and ship
charge   -     undo reserve, skip mail and ship
mail     -     the saga continues without it
ship     -     keep reserve, charge and mail

point of no return: charge
never undone: charge, mail and ship
stuck: no failure

rates of failure: mail 50 %, ship 25 %
sagas: 75 % complete, 25 % recover"""


def test_a_pivot_has_decisions_without_costs() -> None:
    explained = sagas.explain(pivoted(), rates={"ship": 0.25, "mail": 0.5})
    assert str(explained) == PIVOTED
    assert explained.worst is None and explained.orders == ()
    assert "--:" not in explained.markdown() and "| mail |  | the saga continues" in (
        explained.markdown()
    )
    with pytest.raises(ValueError, match="step 'mail' is optional, and its failure needs no plan"):
        explained.draw("mail")


def fanned() -> sagas.Saga[Any]:
    """Return a saga whose steps and costs come from its input."""
    saga: sagas.Saga[Any] = sagas.Saga("shop")

    @saga.step
    def reserve(task: Task) -> None:
        ...

    @reserve.compensation
    def release(task: Task) -> None:
        ...

    @saga.step(needs=[reserve], for_each="items", undo=lambda item: item["size"], keep=9)
    def ship(task: Task) -> None:
        ...

    @ship.compensation
    def take_back(task: Task) -> None:
        ...

    @saga.step(needs=[ship], when=lambda value: value["mail"], undo=sagas.NOTHING)
    def mail(task: Task) -> None:
        ...

    return saga


FANNED = {"items": [{"size": 2}] * 3, "mail": True}
ITEMS = """\
FAILS                  WHEN   COST  WHAT HAPPENS
reserve                -         0  skip ship ×3 and mail
ship-0 (or 2 like it)  late      4  undo the rest of ship and reserve, skip mail
ship-0 (or 2 like it)  early     0  undo reserve, skip the rest of ship and mail
mail                   -         6  undo ship ×3 and reserve
"""


def test_steps_from_an_input_are_explained_with_an_example() -> None:
    saga = fanned()
    explained = sagas.explain(saga, FANNED, rates={"ship": 0.5}, pairs=False)
    assert str(explained).startswith(ITEMS)
    assert explained.rates == {"ship-0": 0.5, "ship-1": 0.5, "ship-2": 0.5}
    assert explained.expected[0].completed == 0.125 and explained.orders == ()
    assert len(sagas.explain(saga, FANNED).pairs) == 6
    with pytest.raises(sagas.InvalidInput, match="Pass an example of an input"):
        sagas.explain(saga)


@pytest.mark.parametrize(
    "rates, error",
    [
        ({"hotl": 0.1}, "saga 'trip' has no step 'hotl'; did you mean 'hotel'?"),
        ({"hotel": 1.5}, "rate of step 'hotel': 1.5 must be from 0 to 1"),
        ({"hotel": True}, "rate of step 'hotel': True must be from 0 to 1"),
        ({"hotel": float("nan")}, "rate of step 'hotel': nan must be from 0 to 1"),
        ({3: 0.5}, "rates: int: must be a step, or its name"),
    ],
)
def test_rates_are_checked(rates: Any, error: str) -> None:
    with pytest.raises((KeyError, ValueError, TypeError)) as raised:
        sagas.explain(trip(), rates=rates)
    assert raised.value.args[0] == error


def test_a_failure_that_does_not_exist_is_named() -> None:
    explained = sagas.explain(trip())
    assert explained.failure("car", "hotel").moment == "any"
    for steps, error in [
        (["hotl"], "has no step 'hotl'; did you mean 'hotel'?"),
        (["car", "tour"], "no failure of car and tour at the moment 'late'"),
    ]:
        with pytest.raises(KeyError, match=error):
            explained.failure(*steps)


STUCK = """
[[step]]
name = "machine"
[[step]]
name = "data"
needs = ["machine"]
undo = "never"
[[step]]
name = "copy"
[[step]]
name = "licence"
needs = ["data", "copy"]
skip = "never"
"""
REASONS = {
    "machine": "licence must not be left out and needs data, which needs machine, which failed",
    "copy": "licence must not be left out and needs copy, which failed",
    "licence": "licence failed and must not be left out",
}


def test_a_stuck_saga_has_its_reason() -> None:
    explained = explanation.of_definition('format = 2\nname = "vm"\n' + STUCK)
    assert {name: explained.failure(name).reason for name in REASONS} == REASONS
    assert "stuck: if machine, data, copy or licence fails" in str(explained)
    assert explained.failure("machine").blocking_steps == ["licence", "data", "machine"]
    never = STUCK.replace('name = "copy"', 'name = "copy"\nkeep = "never"')
    never += '[[step]]\nname = "log"\n'
    explained = explanation.of_definition('format = 2\nname = "vm"\n' + never)
    assert explained.failure("log").reason == (
        "licence must not be left out and needs copy, which must not remain in effect"
    )


def test_a_better_order_is_planned_with_its_need() -> None:
    explained = sagas.explain(trip(), rates={"hotel": 0.1, "tour": 0.02})
    (order,) = explained.orders
    with_need = trip()
    car, hotel = with_need.steps[1], with_need.steps[2]
    assert (order.step, order.after) == (car.name, hotel.name)
    text = with_need.toml().replace(
        'name = "car"\n# compensated\nneeds = ["flight"]',
        'name = "car"\n# compensated\nneeds = ["flight", "hotel"]',
    )
    assert text != with_need.toml()
    after = explanation.of_definition(text, rates={"hotel": 0.1, "tour": 0.02})
    assert after.expected[0].cost == pytest.approx(order.cost)
    assert explained.expected[0].cost == pytest.approx(order.cost_before)


# -- compared with simulations, and with all states


def scripted(drawn: list[StepDraw], failing: str, delayed: set[str]) -> sagas.Saga[Any]:
    """Return a saga of a random definition, in which a step fails.

    Steps of `delayed` need an hour, also the failing one.
    """
    saga: sagas.Saga[Any] = sagas.Saga("random")

    def act(task: Task) -> None:
        if task.step in delayed and task.attempt == 1:
            raise sagas.Retry("later")
        if task.step == failing:
            raise sagas.Fail("it has to fail")

    def undo(task: Task) -> None:
        ...

    for step in drawn:
        costs: dict[str, Any] = {
            word: cost if isinstance(cost := getattr(step, word), int) else sagas.NEVER
            for word in ("run", "undo", "skip", "keep")
        }
        needs = [saga.steps[need] for need in step.needs]
        made = saga.step(name=step.name, needs=needs, tries=5, backoff=HOUR, **costs)(act)
        if step.undo != "never":
            made.compensation(undo)
    return saga


ENDS = {"undone": "undone", "kept": "committed", "run": "committed", "skipped": "waiting"}


@FEW
@given(steps())
def test_plans_are_those_of_real_runs(drawn: list[StepDraw]) -> None:
    names = [step.name for step in drawn]
    needed = {name: {names[need] for need in step.needs} for name, step in zip(names, drawn)}
    for name in names:
        for need in [*needed[name]]:
            needed[name] |= needed[need]
    explained = sagas.explain(scripted(drawn, "", set()))
    for case in explained.failures:
        (failing,) = case.steps
        late = {failing}
        early = {name for name in names if name not in needed[failing]} - late
        for delayed in [late] * (case.moment != "early") + [early] * (case.moment != "late"):
            trial = sagas.testing.run(scripted(drawn, failing, delayed))
            assert (trial.phase == "stuck") == case.is_stuck, (case, trial)
            if case.is_stuck:
                continue
            assert trial.cost == case.cost, (case, trial)
            ends = {step: end for word, end in ENDS.items() for step in getattr(case, word)}
            assert trial.states == ends | {failing: "failed"}, (case, trial)


def reachable(drawn: list[StepDraw]) -> list[list[str]]:
    """Return the states of all sagas of a definition that a plan may find."""
    listed: list[list[str]] = [[]]
    for step in drawn:
        listed = [
            [*states, state]
            for states in listed
            for state in ("waiting", "committed", "failed")
            if state == "waiting" or all(states[need] == "committed" for need in step.needs)
        ]
    return listed


@FEW
@given(steps(max_steps=4))
def test_exactly_the_steps_that_no_plan_undoes_are_listed(drawn: list[StepDraw]) -> None:
    text = toml("random", drawn)
    undone = set()
    for states in reachable(drawn):
        for aborted in (False, True):
            case = {"states": states} | ({"aborted": True} if aborted else {})
            answer = json.loads(sagas.plan(text, json.dumps(case)).text)
            is_over = states == ["committed"] * len(drawn)
            if "kept" in answer and (aborted or "failed" in states) and not is_over:
                undone |= {
                    step.name
                    for number, step in enumerate(drawn)
                    if states[number] == "committed" and number not in answer["kept"]
                }
    explained = explanation.of_definition(text)
    assert {*explained.never_undone} == {step.name for step in drawn} - undone
    for case in explained.pairs:
        assert case.plan and case.plan.check() == (
            "blocked" if case.is_stuck else f"least {case.cost}"
        )


def test_a_page_does_not_wait_for_many_plans() -> None:
    """A large definition is computed in a thread, which ends with the service."""
    text = 'format = 2\nname = "large"\n' + "".join(
        f'[[step]]\nname = "s{number}"\nundo = 2\nkeep = 1\n' for number in range(1024)
    )

    async def case() -> None:
        explanations = Explanations()
        assert await explanations.table(text) is None
        assert {planner.threads for planner in explanations._planners} <= {1}
        small = await explanations.table(trip().toml())
        assert small and [row.decision for row in small.rows][-1].startswith("undo car")
        assert await explanations.table(trip().toml()) is small
        explanations.close()
        with pytest.raises(PlanningStopped):
            await explanations._tables[digest_of(text)]

    run(case())


# -- rates of a history


def test_rates_are_learned_from_a_store(location: str) -> None:
    saga: sagas.Saga[Any] = sagas.Saga("order")

    @saga.step
    def charge(task: Task) -> str:
        if task.input == "card":
            raise sagas.Fail("declined")
        return "charged"

    @charge.compensation
    def refund(task: Task) -> None:
        ...

    @saga.step(needs=[charge], optional=True)
    def mail(task: Task) -> None:
        if task.input == "mail":
            raise sagas.Fail("no address")

    @saga.step(needs=[charge], keep=1)
    def ship(task: Task) -> None:
        ...

    with sagas.open_sync(location, [saga]) as store:
        runs = [store.start(saga, f"k{n}", kind) for n, kind in enumerate(["card", "mail", "", ""])]
        for started in runs:
            started.wait(timeout=60)
    explained = sagas.explain(saga, history=location, rates={ship: 0.5})
    assert explained.rates == {"charge": 0.25, "mail": 1 / 3, "ship": 0.5}
    assert explained.learned_from == 4
    assert "rates of failure (history of 4 sagas): charge 25 %" in str(explained)
    assert explained.expected[0].completed == 0.375


def test_a_history_that_cannot_be_read(tmp_path: pathlib.Path) -> None:
    with pytest.raises(sagas.InvalidStore, match="nowhere.db"):
        sagas.explain(trip(), history=str(tmp_path / "nowhere.db"))


# -- the command


SAGAS = [trip(), fanned()]
TRIP_SAGA, FANNED_SAGA, NO_SAGA = SAGAS[0], SAGAS[1], 5
HERE = __name__
LICENCE = """format = 2
name = "licence"

# of the machine: a comment of a person
[[step]]
name = "machine"
"""


def test_the_command_prints_what_the_function_returns(tmp_path: pathlib.Path) -> None:
    rates = ["--rate", "hotel=0.1", "--rate", "tour=0.02"]
    printed = command("explain", f"{HERE}:TRIP_SAGA", *rates)
    assert (printed.returncode, printed.stdout, printed.stderr) == (0, TRIP + "\n", "")
    explained = sagas.explain(trip(), rates={"hotel": 0.1, "tour": 0.02})
    as_json = command("explain", f"{HERE}:SAGAS", "--saga", "trip", *rates, "--json").stdout
    assert json.loads(as_json) == json.loads(json.dumps(explained.json()))
    table = command("explain", f"{HERE}:TRIP_SAGA", "--markdown").stdout
    assert table == explained.markdown() + "\n"
    path = tmp_path / "trip.toml"
    path.write_text(trip().toml())
    with_pairs = command("explain", str(path), *rates, "--pairs").stdout
    assert with_pairs.startswith(TRIP) and "car and hotel  -      " in with_pairs
    assert command("explain", str(path), "--draw", "hotel").stdout == explained.draw("hotel")
    svg = command("explain", str(path), "--draw", "car", "--svg", "--early").stdout
    assert svg == explained.svg("car", moment="early") + "\n" and ">is skipped<" in svg
    assert ">point of no return<" in command("explain", str(path), "--svg").stdout
    (tmp_path / "input.json").write_text(json.dumps(FANNED))
    some = command("explain", f"{HERE}:FANNED_SAGA", "--input", str(tmp_path / "input.json"))
    assert some.stdout.startswith(ITEMS)


KEYS = {
    "saga": "trip",
    "version": 1,
    "steps": ["flight", "car", "hotel", "tour"],
    "pivot": None,
    "point_of_no_return": ["flight"],
    "never_undone": ["flight", "hotel", "tour"],
    "rates": {"hotel": 0.1},
    "learned_from": None,
    "orders": [{"step": "car", "after": "hotel", "cost": 1.0, "cost_before": 1.5}],
}
TOUR = {
    "steps": ["tour"],
    "moment": "any",
    "stuck": False,
    "cost": 18,
    "undone": ["car"],
    "kept": ["flight", "hotel"],
    "run": [],
    "skipped": [],
    "blocking_steps": [],
    "reason": None,
}


def test_the_shape_of_its_json() -> None:
    document = sagas.explain(trip(), rates={"hotel": 0.1}).json()
    assert {key: document[key] for key in KEYS} == KEYS
    assert document["failures"][-1] == TOUR == document["worst"]
    assert [case["steps"] for case in document["pairs"]] == [["car", "hotel"]]
    late = {"moment": "late", "completed": 0.9, "recovered": 0.1, "stuck": 0, "cost": 1.5}
    assert document["expected"][0] == late
    assert {*document} == {*KEYS, "failures", "pairs", "worst", "expected"}


@pytest.mark.parametrize(
    "arguments, status, error",
    [
        (["nowhere.toml"], 4, "nowhere.toml: file does not exist, and it is not MODULE:NAME"),
        (["."], 4, ". is a folder: pass a definition file"),
        (["bad.toml"], 1, "bad.toml:4: saga 'trip', step 'car': needs unknown step 'cr'"),
        (["broken.toml"], 1, "broken.toml:2: invalid TOML"),
        (["good.toml", "--input", "x.json"], 2, "--input: a definition file has one saga"),
        (["good.toml", "--rate", "machne=0.1"], 1, "did you mean 'machine'?"),
        (["good.toml", "--rate", "machine=2"], 2, "use STEP=RATE, with a rate from 0 to 1"),
        (["good.toml", "--rate", "machine=nan"], 2, "use STEP=RATE, with a rate from 0 to 1"),
        (["good.toml", "--rate", "a=1", "--rate", "a=0"], 2, "--rate a: a step has one rate"),
        (["good.toml", "--early"], 2, "--early: requires --draw STEP"),
        (["good.toml", "--draw", "x"], 1, "saga 'licence' has no step 'x'"),
        (["good.toml", "--json", "--svg"], 2, "--svg: not allowed with --json or --markdown"),
        (["good.toml", "--from", "no.db"], 4, "no.db"),
        ([f"{HERE}:SAGAS"], 2, "has more than one saga: pass --saga with shop, trip"),
        ([f"{HERE}:SAGAS", "--saga", "x"], 2, "has no saga 'x': pass --saga with shop, trip"),
        ([f"{HERE}:NO_SAGA"], 2, "must be a saga, a list of sagas, or a store"),
        ([f"{HERE}:NOTHING"], 2, "has no attribute 'NOTHING'"),
        ([f"{HERE}:FANNED_SAGA"], 1, "Pass an example of an input: --input FILE"),
        ([f"{HERE}:FANNED_SAGA", "--input", "x.json"], 1, "--input x.json:2: invalid JSON"),
        ([f"{HERE}:FANNED_SAGA", "--input", "none.json"], 4, "none.json: No such file"),
    ],
)
def test_errors_say_what_to_do(
    tmp_path: pathlib.Path,
    monkeypatch: pytest.MonkeyPatch,
    arguments: list[str],
    status: int,
    error: str,
) -> None:
    monkeypatch.chdir(tmp_path)
    (tmp_path / "good.toml").write_text(LICENCE)
    bad = 'format = 2\nname = "trip"\n\n[[step]]\nneeds = ["cr"]\nname = "car"\n'
    (tmp_path / "bad.toml").write_text(bad)
    (tmp_path / "broken.toml").write_text("format = 2\nname =\n")
    (tmp_path / "x.json").write_text('{"items":\n x}')
    done = command("explain", *arguments)
    assert (done.returncode, done.stdout) == (status, "")
    assert error in done.stderr and done.stderr.startswith(("sagas explain: ", "usage: "))


def test_a_definition_of_the_service_has_its_optional_steps(tmp_path: pathlib.Path) -> None:
    (tmp_path / "a.toml").write_text(LICENCE + "[defaults]\ntries = 3\n")
    (tmp_path / "a.service.toml").write_text("[step.machine]\noptional = true\n")
    assert "machine  -        -  the saga continues without it" in (
        command("explain", str(tmp_path / "a.toml")).stdout
    )
    no_pairs = command("explain", str(tmp_path / "a.toml"), "--pairs").stdout
    assert no_pairs.endswith("\n\nno two steps can fail together, because none are independent\n")
    (tmp_path / "pay.toml").write_text(pivoted().toml())
    assert "point of no return: charge" in command("explain", str(tmp_path / "pay.toml")).stdout
