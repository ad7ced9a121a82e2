"""Routes and the page of webhook deliveries."""

from __future__ import annotations

import logging
from typing import Any
from urllib.parse import urlencode

from starlette.responses import RedirectResponse, Response

from sagas.inspection import delivery_questions
from sagas.inspection.delivery_questions import Delivery
from sagas.server import answers
from sagas.server.auth import Permission, Principal
from sagas.server.dashboard import session_and_form, show_page
from sagas.server.database_reads import of_each, unavailable_of
from sagas.server.json_bodies import Json, times
from sagas.server.operations import Answer, Call, Routes
from sagas.server.problems import Problem
from sagas.server.routes.filters import LIMIT
from sagas.server.service import Service
from sagas.server.shapes import Choice, Field, Record, Text
from sagas.storage.webhook_deliveries import DeliveryState

logger = logging.getLogger("sagas.server")
routes = Routes("operators", "/v1")
REDELIVER = Record("RedeliverRequest", {}, "An empty object.")


def delivery_json(delivery: Delivery) -> dict[str, Any]:
    """Return a delivery, without its signature."""
    return {
        "id": delivery.id,
        "webhook": delivery.webhook,
        "type": delivery.type,
        "key": delivery.key,
        **times(at=delivery.at),
        "state": delivery.state,
        "attempts": delivery.attempts,
        "status": delivery.status,
        "error": delivery.error,
        **times(due=delivery.due),
    }


def check_all(principal: Principal) -> None:
    """Raise `Problem` if the principal is restricted to some definitions."""
    if principal.definitions is not None:
        raise Problem("Forbidden", f"{principal.name} is restricted to some definitions")


async def post_again(call: Call, id: str) -> Delivery:
    """Post a delivery again, in the database that has it. Raises `Problem`."""
    check_all(call.principal)
    for service in call.service.in_use:
        done = await service.store.deliveries.redeliver(id)
        delivery = await service.look(delivery_questions.delivery(id)) if done else None
        if delivery is not None:
            logger.info("%s has the delivery %s posted again", call.principal.name, delivery.id)
            service.webhooks.look()
            return delivery
    call.service.check_complete()
    raise Problem("NoSuchDelivery", f"no delivery has the id {id[:64]!r}")


async def latest(call: Call, state: str | None, webhook: str | None, limit: int) -> list[Delivery]:
    """Return the latest deliveries of all databases, the newest first."""

    async def part(service: Service, _: int) -> list[Delivery]:
        return await service.look(delivery_questions.listed(state, webhook, limit))

    rows = [row for rows in (await of_each(call, part)).values() for row in rows]
    return sorted(rows, key=lambda row: -row.at)[:limit]


@routes.get(
    "/webhooks/deliveries",
    "listDeliveries",
    permission=Permission.OPERATE,
    query={
        "state": Field(
            Choice(tuple(state.value for state in DeliveryState)),
            "only deliveries in this state",
            default=None,
        ),
        "webhook": Field(Text(max_length=64), "only deliveries to this webhook", default=None),
        "limit": LIMIT,
    },
    answers={200: Answer("The latest deliveries, newest first.", answers.DELIVERIES)},
)
async def listed(call: Call) -> Response:
    """List deliveries of webhooks.

    Returns deliveries of all services that share the store.
    """
    check_all(call.principal)
    query = call.query
    rows = await latest(call, query["state"], query["webhook"], query["limit"])
    return Json({"deliveries": [delivery_json(row) for row in rows]} | unavailable_of(call))


@routes.post(
    "/webhooks/deliveries/{id}/redeliver",
    "redeliver",
    permission=Permission.OPERATE,
    body=REDELIVER,
    answers={200: Answer("The delivery is pending again.", answers.DELIVERY)},
    problems=("NoSuchDelivery",),
)
async def redeliver(call: Call) -> Response:
    """Post a delivery again.

    It keeps its id and gets all its attempts again, even if it was delivered or given up.
    """
    return Json(delivery_json(await post_again(call, call.path["id"])))


# -- the page


page_routes = Routes("pages", is_page=True)
LISTED = 100
STATES = tuple(state.value for state in DeliveryState)
FILTERED = {
    "state": Field(Choice(STATES), default=None),
    "webhook": Field(Text(max_length=64), default=None),
}
LOOKS = {"pending": "open", "delivered": "completed", "failed": "stuck"}
"""The badge of a state: that of a phase with a similar meaning."""


def page_url(**parameters: Any) -> str:
    """Return the page with this filter."""
    query = {name: value for name, value in parameters.items() if value}
    return f"/ui/webhooks?{urlencode(query)}" if query else "/ui/webhooks"


@page_routes.get("/ui/webhooks", permission=Permission.OPERATE, query=FILTERED)
async def deliveries_page(call: Call) -> Response:
    """Show the latest deliveries, newest first."""
    check_all(call.principal)
    state, webhook = call.query["state"], call.query["webhook"]
    listed_deliveries = await latest(call, state, webhook, LISTED + 1)
    return show_page(
        call.request,
        "webhooks.html",
        here="webhooks",
        deliveries=listed_deliveries[:LISTED],
        limit=LISTED,
        more=len(listed_deliveries) > LISTED,
        states=(None, *STATES),
        looks=LOOKS,
        state=state,
        webhook=webhook,
        url=page_url,
        has_hooks=call.service.settings.webhooks is not None,
    )


@page_routes.post("/ui/webhooks/{id}/redeliver", permission=Permission.OPERATE)
async def redeliver_from_page(call: Call) -> Response:
    """Post a delivery again, and redirect to the list."""
    _, form = await session_and_form(call.request)
    await post_again(call, call.path["id"])
    state = form.get("state") if form.get("state") in STATES else None
    return RedirectResponse(page_url(state=state, webhook=form.get("webhook", "")[:64]), 303)
