"""The alerts of `examples/service/alerts.yml`, by Prometheus's own program."""

from __future__ import annotations

import pathlib
import re
import subprocess
import time
from collections.abc import Callable
from typing import Any, NamedTuple

import httpx
import pytest
import yaml
from server import Server
from serving import DEFINITIONS, LONG, error_of, served, start

from sagas.server import metrics

TOP = pathlib.Path(__file__).resolve().parent.parent.parent
GUIDE = TOP / "docs" / "guides" / "alerts.md"
ALERTS = TOP / "examples" / "service" / "alerts.yml"


class Case(NamedTuple):
    """An alert, a series of its expression, with a value each minute, and minutes at which it is
    silent and at which it fires.
    """

    alert: str
    series: str
    values: str
    silent: int
    fires: int


def attention(alert: str, reason: str, minutes: int) -> Case:
    """Return the case of an alert that fires after something has required an operator for a time.

    A shorter time before is silent.
    """
    series = f'sagas_attention_required{{saga="trip", reason="{reason}"}}'
    short = max(0, minutes - 1)
    rising = f"0 1x{short} 0 1x{minutes + 2}" if short else f"0x3 1x{minutes + 2}"
    return Case(alert, series, rising, short + 2, short + 3 + minutes + 1)


def first_error(alert: str, kind: str) -> Case:
    """Return the case of an alert that the first error of its kind fires."""
    return Case(alert, f'sagas_internal_errors_total{{kind="{kind}"}}', "0x3 1x9", 3, 5)


CASES = [
    attention("SagaStuck", "stuck", 5),
    attention("UndoFailed", "undo_failed", 5),
    attention("UnusedReport", "unused_report", 5),
    attention("EndNotCalled", "on_end", 5),
    attention("CannotDecode", "cannot_decode", 5),
    attention("ProgramError", "program_error", 0),
    attention("SagaWithoutNode", "no_node", 5),
    attention("SagaWithoutNode", "no_definition", 5),
    attention("ShardDamaged", "damaged", 0),
    attention("AttemptsUsedUp", "exhausted", 5),
    attention("OutcomeUnknown", "unknown", 15),
    Case(
        "TasksWait",
        'sagas_tasks_oldest_seconds{saga="trip", step="car", action="run"}',
        "0+60x20",
        5,
        7,
    ),
    Case("StoreDown", "sagas_store_up", "1x3 0x9", 4, 6),
    Case("ShardsWithoutNode", "sagas_shards_without_node", "0x3 2x9", 6, 10),
    *(
        Case(
            alert,
            f'sagas_attention_oldest_seconds{{saga="trip", reason="{reason}"}}',
            "86000+60x20",
            5,
            9,
        )
        for alert, reason in (("StuckForLong", "stuck"), ("ApprovalWaits", "approval"))
    ),
    Case(
        "WebhookFailed",
        'sagas_webhook_posts_total{webhook="shop", outcome="failed"}',
        "0x3 1x9",
        3,
        5,
    ),
    Case("LeasesRunOut", "sagas_tasks_reclaimed_total", "0x9 60+60x40", 20, 40),
    first_error("StoreUnavailable", "commit_failed"),
    first_error("LeaseLapsed", "lease_expired"),
    first_error("AuditFailed", "audit_failed"),
    first_error("EngineDied", "engine_died"),
    Case("SagasDown", 'up{job="sagas"}', "1x3 0x9", 4, 7),
]


def rules() -> list[dict[str, Any]]:
    """Return the alerts of the file."""
    groups = yaml.safe_load(ALERTS.read_text())["groups"]
    return [rule for group in groups for rule in group["rules"]]


def firing(alert: str, minute: int, is_firing: bool) -> dict[str, Any]:
    """Return the check that an alert fires, or is silent, at a minute."""
    return {
        "expr": f'count(ALERTS{{alertname="{alert}", alertstate="firing"}}) > 0',
        "eval_time": f"{minute}m",
        "exp_samples": [{"labels": "{}", "value": 1}] if is_firing else [],
    }


def check_rules(folder: pathlib.Path, tests: list[dict[str, Any]]) -> None:
    """Have `promtool` check the alerts with these tests."""
    file = folder / "tests.yml"
    unit = {"rule_files": [str(ALERTS)], "evaluation_interval": "1m", "tests": tests}
    file.write_text(yaml.safe_dump(unit))
    done = subprocess.run(["promtool", "test", "rules", str(file)], capture_output=True, text=True)
    assert done.returncode == 0, done.stdout + done.stderr


def test_each_alert_fires_and_is_silent_before(tmp_path: pathlib.Path) -> None:
    done = subprocess.run(["promtool", "check", "rules", str(ALERTS)], capture_output=True)
    assert done.returncode == 0, done.stderr
    assert {case.alert for case in CASES} == {rule["alert"] for rule in rules()}
    tests = [
        {
            "interval": "1m",
            "input_series": [{"series": case.series, "values": case.values}],
            "promql_expr_test": [
                firing(case.alert, case.silent, False),
                firing(case.alert, case.fires, True),
            ],
        }
        for case in CASES
    ]
    check_rules(tmp_path, tests)
    with pytest.raises(AssertionError, match="FAILED"):  # it does check them
        check_rules(tmp_path, [{**tests[0], "promql_expr_test": [firing("SagaStuck", 1, True)]}])


def test_each_alert_says_how_urgent_it_is_and_what_to_do() -> None:
    """The page has a section for each of them, and no other one of that kind."""
    sections = set(re.findall(r"^### (\w+)$", GUIDE.read_text(), re.M))
    assert sections == {rule["alert"] for rule in rules()}
    for rule in rules():
        assert rule["labels"]["severity"] in ("critical", "warning", "info")
        assert rule["annotations"]["summary"]
        assert rule["annotations"]["runbook"] == f"docs/guides/alerts.md#{rule['alert'].lower()}"


def test_the_counters_of_an_alert_begin_at_zero() -> None:
    """An increase from nothing to 1 is none for Prometheus, so the series must exist before."""
    kinds = {
        kind
        for rule in rules()
        for kind in re.findall(r'internal_errors_total\{kind="(\w+)"\}', rule["expr"])
    }
    assert kinds and kinds <= {*metrics.INTERNAL_ERRORS}


def samples(client: httpx.Client) -> dict[str, float]:
    """Return the samples of a service by their series."""
    answer = client.get("/metrics")
    assert answer.status_code == 200, answer.text
    lines = [line for line in answer.text.splitlines() if not line.startswith("#")]
    return {series: float(value) for series, _, value in (line.rpartition(" ") for line in lines)}


def samples_when(
    client: httpx.Client, condition: Callable[[dict[str, float]], bool]
) -> dict[str, float]:
    """Return the samples as soon as they satisfy a condition."""
    deadline = time.monotonic() + 2 * LONG
    while not condition(now := samples(client)):
        assert time.monotonic() < deadline, now
        time.sleep(0.2)
    return now


def test_an_outage_of_the_database_fires_alerts(
    tmp_path: pathlib.Path, postgresql: Server, url: str
) -> None:
    """The metrics are read before, during and after an outage, and `promtool` gets them."""
    failed, lapsed = (
        f'sagas_internal_errors_total{{kind="{kind}"}}'
        for kind in ("commit_failed", "lease_expired")
    )
    lease = 2  # seconds
    with served(
        tmp_path, DEFINITIONS, "--lease", str(lease), store=url
    ) as service, service.client() as client:
        start(client, "trip", "k")
        before = samples(client)
        assert before["sagas_store_up"] == before["sagas_nodes"] == 1
        assert before[failed] == before[lapsed] == before["sagas_shards_without_node"] == 0
        postgresql.stop()
        lapse = time.monotonic() + lease + 1  # no lease that was renewed before lasts until then
        try:
            assert error_of(start(client, "trip", "x")) == "StoreUnavailable"
            during = samples_when(
                client, lambda now: now["sagas_store_up"] == 0 and time.monotonic() > lapse
            )
            assert not any(
                re.match("sagas_(current|attention|tasks_ready|nodes)", of) for of in during
            )
            assert 'sagas_started_total{saga="trip"}' in during and "process_open_fds" in during
        finally:
            postgresql.start()
        after = samples_when(client, lambda now: now["sagas_store_up"] and now[lapsed] > 0)
        assert after[failed] > 0
    moments = [before] * 3 + [during] * 3 + [after] * 3
    series = [
        {"series": name, "values": " ".join(str(moment.get(name, "_")) for moment in moments)}
        for name in during
        if name.startswith("sagas_")
    ]
    checks = [
        firing(alert, minute, is_firing)
        for alert, down in (("StoreDown", 4), ("StoreUnavailable", 7), ("LeaseLapsed", 7))
        for minute, is_firing in ((2, False), (down, True))
    ]
    check_rules(tmp_path, [{"interval": "1m", "input_series": series, "promql_expr_test": checks}])
