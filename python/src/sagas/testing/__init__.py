"""Simulations for tests: whole sagas run in memory, in milliseconds."""

from sagas.inspection.upgrade import UpgradeFinding, UpgradeReport
from sagas.testing.schedule import schedule_times
from sagas.testing.simulator import run, run_async
from sagas.testing.trial import Call, Clock, Trial
from sagas.testing.upgrade import check_upgrade

__all__ = [
    "Call",
    "Clock",
    "Trial",
    "UpgradeFinding",
    "UpgradeReport",
    "check_upgrade",
    "run",
    "run_async",
    "schedule_times",
]
