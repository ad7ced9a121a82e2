"""Read-only questions to a store, for the API, the command line and the dashboard.

reader = sagas.inspection.StoreReader(store.reader())
reader.ask(sagas.inspection.lists.counts())
reader.ask(sagas.inspection.saga.view("order-1"))
"""

from sagas.inspection import lists as lists, saga as saga
from sagas.inspection.question import AsyncStoreReader, StoreReader
from sagas.inspection.views import Note, SagaView, StepView, Waits

__all__ = [
    "AsyncStoreReader",
    "Note",
    "SagaView",
    "StepView",
    "StoreReader",
    "Waits",
    "lists",
    "saga",
]
