"""Print a plan, as plan.c does.

The package calls the library in the process of this program. Run it in the root of the repository:

PYTHONPATH=python/src python3 examples/library/plan.py examples/trip.toml examples/trip.case.json
"""

import pathlib
import sys

import sagas

definition, case = (pathlib.Path(path).read_bytes() for path in sys.argv[1:3])
try:
    verdict = sagas.plan(definition, case)
except sagas.InvalidText as bad:
    print(bad, file=sys.stderr)
    sys.exit(3)
print(verdict.text)
sys.exit(0 if verdict.yes else 1)
