"""A worker in Python.

    PYTHONPATH=python/src python3 examples/service/worker.py http://127.0.0.1:8080 [TOKEN]
"""

import sys

import sagas

if len(sys.argv) < 2:
    sys.exit(__doc__)
worker = sagas.Worker(*sys.argv[1:3], lease=10)


@worker.step("trip", "flight")
def flight(task):
    return {"seat": "12A", "key": task.idempotency_key}


@worker.step("trip", "car")
def car(task):
    return {"id": 7, "for": task.results["flight"]["seat"]}


@worker.compensation("trip", "car")
def cancel_car(task):
    print("cancelled: car", task.result["id"], flush=True)


@worker.step("licence", "server")
def server(task):
    return {"address": "192.0.2.17"}


@worker.step("licence", "licence")
def licence(task):
    if "none" in (task.input or {}):
        raise sagas.Fail("there are no licences left")
    return "ABC-123"


worker.run()
