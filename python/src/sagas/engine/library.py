"""`plan`, `check` and `audit` by the C library, or by the program.

Plans, checks and audits of texts, by the C library in this process. If the library does not exist,
the program performs them.

    verdict = sagas.plan(definition, case)             # Verdict(yes=True,
    text='{"cost":38,"kept":[0,1],...}')
    sagas.check(definition, case, verdict.text)        # Verdict(yes=True, text='least 38')

Texts are str or bytes in the formats of docs/FORMATS.md. A call keeps no state, and other threads
run during it; any number of threads may call.
"""

from __future__ import annotations

import contextlib
import ctypes
import functools
import os
import pathlib
from collections.abc import Sequence
from typing import NamedTuple

from sagas.base import program
from sagas.base.errors import EngineError, SagasError

Text = str | bytes
Span = tuple[int, int]

OK, REJECTED, INVALID, NO_MEMORY, BUFFER_TOO_SMALL = 0, 1, 3, 4, 5
FIRST_SIZE = 65536

# The number of texts of each call, before the spans, the buffer and the used size.
CALLS = {
    "sagas_check": 3,
    "sagas_plan": 2,
    "sagas_audit": 2,
    "sagas_audit_all": 2,
    "sagas_draw": 1,
    "sagas_draw_case": 2,
    "sagas_draw_answer": 3,
}


class InvalidText(SagasError, ValueError):
    """Report that a text does not have its format.

    The message is the program's line; the reference of errors has its remedy.
    """


class Verdict(NamedTuple):
    """Hold an answer: yes or no, and the text that the program prints.

    Attributes:
        yes: Whether the answer is yes.
        text: What the program prints, without the last line feed.
    """

    yes: bool
    text: str


class _Span(ctypes.Structure):
    _fields_ = [("start", ctypes.c_size_t), ("end", ctypes.c_size_t)]


def path() -> pathlib.Path | None:
    """Return the path of the library; None if it does not exist.

    It is `$SAGAS_LIBRARY`, the library of the package, or the release of the surrounding checkout.
    """
    explicit = os.environ.get("SAGAS_LIBRARY")
    candidates = [pathlib.Path(explicit)] if explicit else program.release_paths("libsagas.so")
    return next((candidate for candidate in candidates if candidate.is_file()), None)


@functools.cache
def loaded(path: pathlib.Path) -> ctypes.CDLL | None:
    """Return the library with the types of its calls; None if this machine cannot load it."""
    try:
        library = ctypes.CDLL(str(path))
    except OSError:
        return None
    for name, count in CALLS.items():
        function = getattr(library, name)
        spans = [ctypes.POINTER(_Span), ctypes.c_size_t] if name == "sagas_audit_all" else []
        function.restype = ctypes.c_uint32
        function.argtypes = [
            *[ctypes.c_char_p, ctypes.c_size_t] * count,
            *spans,
            ctypes.c_void_p,
            ctypes.c_size_t,
            ctypes.POINTER(ctypes.c_size_t),
        ]
    return library


def call(
    library: ctypes.CDLL,
    name: str,
    texts: Sequence[bytes],
    spans: Sequence[Span] | None = None,
    size: int = FIRST_SIZE,
) -> tuple[int, bytes]:
    """Call the library, and return its status and its text.

    If the text does not fit into a buffer of `size` bytes, the call is repeated with a larger one.
    """
    arguments: list[object] = [argument for text in texts for argument in (text, len(text))]
    if spans is not None:
        arguments += [
            (_Span * len(spans))(*(_Span(start, end) for start, end in spans)),
            len(spans),
        ]
    used = ctypes.c_size_t()
    while True:
        buffer = ctypes.create_string_buffer(size) if size else None
        status = int(getattr(library, name)(*arguments, buffer, size, ctypes.byref(used)))
        if status != BUFFER_TOO_SMALL:
            return status, ctypes.string_at(buffer, used.value) if buffer else b""
        size = used.value


def _by_program(command: str, texts: Sequence[bytes]) -> tuple[int, bytes]:
    """Run the program, and return its status and its output.

    With the status `INVALID` the output is its line on standard error.
    """
    with contextlib.closing(program.TextFiles(texts)) as text_files:
        process = program.run_to_end([program.path(), command, *text_files.paths], text_files.files)
    if process.returncode not in (OK, REJECTED, INVALID, NO_MEMORY):
        raise EngineError(
            f"sagas {command} ended with {process.returncode}: "
            f"{process.stderr.decode(errors='replace').strip()}"
        )
    return process.returncode, process.stderr if process.returncode == INVALID else process.stdout


def _verdict(command: str, texts: Sequence[Text]) -> Verdict:
    """Return the verdict of a command on texts.

    Raises:
        InvalidText: A text does not have its format.
        MemoryError: The system refused memory.
    """
    encoded = [text.encode() if isinstance(text, str) else text for text in texts]
    library_path = path()
    library = loaded(library_path) if library_path else None
    if library is None:
        status, output = _by_program(command, encoded)
    elif command == "audit":
        ends = [sum(map(len, encoded[1 : count + 1])) for count in range(len(encoded))]
        status, output = call(
            library,
            "sagas_audit_all",
            [encoded[0], b"".join(encoded[1:])],
            list(zip(ends, ends[1:])),
        )
    else:
        status, output = call(library, f"sagas_{command}", encoded)
    if status == NO_MEMORY:
        raise MemoryError(f"sagas {command}: the system refused memory")
    if status == INVALID:
        raise InvalidText(output.decode(errors="replace").rstrip("\n"))
    return Verdict(status == OK, output.decode().rstrip("\n"))


def plan(definition: Text, case: Text) -> Verdict:
    """Return a least-cost plan for a saga in the state of a case.

    A call keeps no state, and other threads run during it; any number of threads may call.

    Args:
        definition: The text of a definition file.
        case: The JSON of a case: the state of each step.

    Returns:
        Yes with the plan and its certificate, as JSON; no with the proof that no plan is feasible.

    Raises:
        InvalidText: A text does not have its format.
        EngineError: Neither the library nor the program `sagas` can be run here.
        MemoryError: The system refused memory.

    Example:
        >>> definition = order.toml()
        >>> case = '{"states":["committed","failed"]}'
        >>> answer = sagas.plan(definition, case)
        >>> sagas.check(definition, case, answer.text)
        Verdict(yes=True, text='least 4')
    """
    return _verdict("plan", [definition, case])


def check(definition: Text, case: Text, answer: Text) -> Verdict:
    """Verify a plan of any origin.

    Args:
        definition: The text of a definition file.
        case: The JSON of a case.
        answer: The JSON of a plan, as `plan` returns it.

    Returns:
        Yes with `least N` or `blocked`; no with `no` and the fault.

    Raises:
        InvalidText: A text does not have its format.
        EngineError: Neither the library nor the program `sagas` can be run here.
        MemoryError: The system refused memory.
    """
    return _verdict("check", [definition, case, answer])


def audit(log: Text, definition: Text, *more: Text) -> Verdict:
    """Verify that every event of a log was allowed.

    Args:
        log: The text of the log.
        definition: The text of its first definition.
        more: The texts of its other definitions, in their order.

    Returns:
        Yes with the numbers of sagas and events; no with the first event that was not allowed.

    Raises:
        InvalidText: A text does not have its format.
        EngineError: Neither the library nor the program `sagas` can be run here.
        MemoryError: The system refused memory.
    """
    return _verdict("audit", [log, definition, *more])
