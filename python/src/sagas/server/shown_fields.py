"""What a service shows of the inputs of sagas to those who decide approvals."""

from __future__ import annotations

import asyncio
import dataclasses
import functools
from collections import OrderedDict
from collections.abc import Iterable, Mapping, Sequence
from typing import TYPE_CHECKING, Any

from sagas.base.errors import CannotDecode, StoreUnavailable
from sagas.definition.definition_text import version_of
from sagas.definition.payloads import Reference
from sagas.inspection import names, shown_fields
from sagas.inspection.attention_pages import APPROVAL, Entry
from sagas.inspection.shown_fields import Fields, StepFields, StoredSaga
from sagas.inspection.views import SagaView

if TYPE_CHECKING:
    from sagas.server.service import Service

MAX_KNOWN = 1000
"""Maximum number of definitions whose fields are held."""
ENCRYPTED = "encrypted"
"""Replaces each value of an input that this service cannot decode."""
UNAVAILABLE = "not available"
"""Replaces each value of an input that the blob store does not return."""
NO_FIELDS: Fields = {}


@dataclasses.dataclass(frozen=True, slots=True)
class Details:
    """What is shown of an entry: labels of its saga, and fields of its input by their paths."""

    labels: Mapping[str, str]
    shown: Mapping[str, Any]


NO_DETAILS = Details({}, {})


class ShownFields:
    """Find what approvals show. Only steps of the service's own definitions show fields."""

    def __init__(self, service: Service) -> None:
        self._service = service
        self._known: OrderedDict[str, Fields] = OrderedDict()

    async def of(self, entries: Sequence[Entry], with_labels: bool = False) -> list[Details]:
        """Return the details of entries, in their order.

        Raises:
            StoreUnavailable: The database does not answer.
        """
        approvals = [entry for entry in entries if entry.kind == APPROVAL and entry.step]
        known = await self._fields_of(approvals)
        shown = [known.get(entry.digest, NO_FIELDS).get(entry.step or "") for entry in entries]
        shows = {entry.id for entry, fields in zip(entries, shown) if fields is not None}
        ids = {entry.id for entry in entries} if with_labels else shows
        if not ids:
            return [NO_DETAILS] * len(entries)
        question = shown_fields.stored_sagas(ids, shows)
        stored = await self._with_blobs(await self._service.look(question))
        pairs = [(stored.get(entry.id), fields) for entry, fields in zip(entries, shown)]
        work = functools.partial(self._details, pairs)
        return await self._service.threads.pages.do(work)

    async def of_step(self, view: SagaView, step: str) -> Mapping[str, Any]:
        """Return the fields of a saga's input that one of its approvals shows.

        Raises:
            StoreUnavailable: The database does not answer.
        """
        pages, id = self._service.threads.pages, view.summary.id
        work = functools.partial(self._fields_in, view.saga, view.definition)
        fields = (await pages.do(work)).get(step)
        if fields is None:
            return {}
        stored = await self._service.look(shown_fields.stored_sagas((id,), (id,)))
        whole = await self._with_blobs(stored)
        if id not in whole:
            return {}
        return await pages.do(functools.partial(self._shown, fields, whole[id]))

    async def _fields_of(self, approvals: Iterable[Entry]) -> dict[str, Fields]:
        """Return the fields that the definitions of approvals show, by their digests."""
        wanted = {entry.digest: entry.saga for entry in approvals}
        result = {digest: self._known[digest] for digest in wanted if digest in self._known}
        for digest in result:
            self._known.move_to_end(digest)
        unknown = {digest: name for digest, name in wanted.items() if digest not in result}
        if unknown:
            texts = await self._service.look(names.of_digests(unknown))
            work = functools.partial(self._compiled, unknown, texts)
            read = await self._service.threads.pages.do(work)
            self._known |= read
            result |= read
        while len(self._known) > MAX_KNOWN:
            self._known.popitem(last=False)
        return result

    def _compiled(self, unknown: Mapping[str, str], texts: names.Names) -> dict[str, Fields]:
        """Return the fields of definitions by their digests. Those of other services show none."""
        return {
            digest: self._fields_in(name, texts.text(digest))
            for digest, name in unknown.items()
            if digest in texts  # else it was deleted concurrently
        }

    def _fields_in(self, name: str, text: str) -> Fields:
        """Return the fields that the approvals of a definition show."""
        for saga in self._service.settings.sagas:
            if (saga.name, saga.version) == (name, version_of(text)):
                shows = any(step.shown_fields for _, step in saga.declared_steps)
                return shown_fields.fields_of(text, saga) if shows else NO_FIELDS
        return NO_FIELDS

    async def _with_blobs(self, stored: dict[int, StoredSaga]) -> dict[int, StoredSaga]:
        """Return the sagas with their large inputs, as far as the blob store returns them."""
        large = {
            id: saga
            for id, saga in stored.items()
            if any(text is not None and Reference.of(text) for text in (saga.input, saga.shape))
        }
        whole = await asyncio.gather(*map(self._whole, large.values()))
        return stored | dict(zip(large, whole))

    async def _whole(self, saga: StoredSaga) -> StoredSaga:
        try:
            texts = [
                text and await self._service.store._whole_text(text)
                for text in (saga.input, saga.shape)
            ]
        except StoreUnavailable:  # the references remain
            return saga
        return StoredSaga(saga.labels, *texts)

    def _details(
        self, pairs: Iterable[tuple[StoredSaga | None, StepFields | None]]
    ) -> list[Details]:
        return [
            NO_DETAILS
            if saga is None
            else Details(saga.labels, {} if fields is None else self._shown(fields, saga))
            for saga, fields in pairs
        ]

    def _shown(self, fields: StepFields, saga: StoredSaga) -> Mapping[str, Any]:
        try:
            return shown_fields.values_of(fields, saga, self._service.store._payloads.decode)
        except KeyError:  # its stored shape is that of another release
            return {}
        except CannotDecode:
            is_away = Reference.of(saga.input or "") or Reference.of(saga.shape or "")
            return dict.fromkeys(fields.paths, UNAVAILABLE if is_away else ENCRYPTED)
