"""Change the memory of a WebAssembly module from 64 bits to 32 bits, which every engine has.

Pointers remain numbers of 64 bits, in memory and in calls. Only an access to the memory cuts its
address to 32 bits. No address has more bits: the memory has at most 4 GiB, and a growth beyond that
is refused. So only these parts change: the limits of memory and table, the addresses of the data,
and the address before each access. A value above the address on the stack is saved in a local.

The program stops if it does not know a part of the module.
"""

from __future__ import annotations

import sys
from collections.abc import Iterator
from dataclasses import dataclass, field

I32, I64, F32, F64 = 0x7F, 0x7E, 0x7D, 0x7C
CUSTOM, TYPE, FUNCTION, TABLE, MEMORY, GLOBAL, EXPORT, CODE, DATA, DATA_COUNT = (
    0,
    1,
    3,
    4,
    5,
    6,
    7,
    10,
    11,
    12,
)
KNOWN = (CUSTOM, TYPE, FUNCTION, TABLE, MEMORY, GLOBAL, EXPORT, CODE, DATA, DATA_COUNT)
IS_64 = 4  # the flag of limits

WRAP, EXTEND_UNSIGNED, EXTEND_SIGNED = b"\xa7", b"\xad", b"\xac"
I32_CONST, I64_CONST = 0x41, 0x42
LOADS = range(0x28, 0x36)
STORES = {
    0x36: I32,
    0x37: I64,
    0x38: F32,
    0x39: F64,
    0x3A: I32,
    0x3B: I32,
    0x3C: I64,
    0x3D: I64,
    0x3E: I64,
}
CALL_INDIRECT, MEMORY_SIZE, MEMORY_GROW, BULK, MEMORY_COPY, MEMORY_FILL = (
    0x11,
    0x3F,
    0x40,
    0xFC,
    10,
    11,
)

# The instructions with one number, those without one, and those that push one value and pop none.
BLOCKS = (0x02, 0x03, 0x04)
WITH_NUMBER = (*BLOCKS, 0x0C, 0x0D, 0x10, 0x20, 0x21, 0x22, 0x23, 0x24, I32_CONST, I64_CONST)
PLAIN = (0x00, 0x01, 0x05, 0x0B, 0x0F, 0x1A, 0x1B, *range(0x45, 0xC5))
PUSHES = (0x20, 0x23, I32_CONST, I64_CONST, 0x43, 0x44)


class Unknown(Exception):
    """The module has a part that this program does not know."""


def number(data: bytes, at: int) -> tuple[int, int]:
    """Return an unsigned number, and the offset of its end."""
    value = shift = 0
    while True:
        byte = data[at]
        value |= (byte & 0x7F) << shift
        at, shift = at + 1, shift + 7
        if byte < 0x80:
            return value, at


def written(value: int) -> bytes:
    """Return an unsigned number as bytes."""
    out = bytearray()
    while value > 0x7F:
        out.append(value & 0x7F | 0x80)
        value >>= 7
    return bytes([*out, value])


def after(data: bytes, at: int, count: int = 1) -> int:
    """Return the offset of the end of `count` numbers, signed or not."""
    for _ in range(count):
        while data[at] & 0x80:
            at += 1
        at += 1
    return at


def end_of(data: bytes, at: int) -> int:
    """Return the offset of the end of the instruction at `at`."""
    code = data[at]
    at += 1
    if code in PLAIN:
        return at
    if code in WITH_NUMBER:
        return after(data, at)
    if code in LOADS or code in STORES or code == CALL_INDIRECT:
        return after(data, at, 2)
    if code in (MEMORY_SIZE, MEMORY_GROW):
        return at + 1
    if code in (0x43, 0x44):
        return at + (4 if code == 0x43 else 8)
    if code == 0x0E:
        count, at = number(data, at)
        return after(data, at, count + 1)
    if code == BULK:
        kind, at = number(data, at)
        if kind < 8:
            return at
        if kind in (MEMORY_COPY, MEMORY_FILL):
            return at + (2 if kind == MEMORY_COPY else 1)
        raise Unknown(f"instruction fc {kind}")
    raise Unknown(f"instruction {code:02x}")


def access(code: bytes) -> bytes:
    """Return a load or a store with the shortest form of its offset.

    The linker writes an offset of 64 bits.
    """
    align, at = number(code, 1)
    offset, _ = number(code, at)
    if align > 4 or offset >> 32:
        raise Unknown(f"an access at {offset}")
    return code[:at] + written(offset)


@dataclass
class Body:
    """The new code of a function, and the types of the locals that hold saved values."""

    first: int
    out: bytearray = field(default_factory=bytearray)
    saved: list[int] = field(default_factory=list)

    def local(self, kind: int, position: int = 0) -> bytes:
        """Return the number of the local at a position among those of a type."""
        while self.saved.count(kind) <= position:
            self.saved.append(kind)
        numbers = [number for number, other in enumerate(self.saved) if other == kind]
        return written(self.first + numbers[position])

    def add(self, code: bytes, before: int) -> None:
        """Add an instruction.

        Args:
            code: The bytes of the instruction.
            before: The offset of the previous instruction in the new code, if that one pushes a
                value and pops none; else -1.
        """
        kind = code[0]
        if kind in LOADS or kind in STORES:
            code = access(code)
        if kind in LOADS or kind == CALL_INDIRECT:
            self.out += WRAP + code
        elif kind in STORES and before >= 0:
            self.out[before:before] = WRAP
            self.out += code
        elif kind in STORES:
            local = self.local(STORES[kind])
            self.out += b"\x21" + local + WRAP + b"\x20" + local + code
        elif kind == MEMORY_SIZE:
            self.out += code + EXTEND_UNSIGNED
        elif kind == MEMORY_GROW:
            self.out += WRAP + code + EXTEND_SIGNED
        elif kind == BULK and code[1] in (MEMORY_COPY, MEMORY_FILL):
            self.add_bulk(code)
        else:
            self.out += code

    def add_bulk(self, code: bytes) -> None:
        """Add a copy or a fill: an address, then an address or a byte, then a length."""
        is_copy = code[1] == MEMORY_COPY
        second = self.local(I64 if is_copy else I32, 1)
        self.out += WRAP + b"\x21" + self.local(I32) + b"\x21" + second + WRAP + b"\x20" + second
        self.out += (WRAP if is_copy else b"") + b"\x20" + self.local(I32) + code


def narrowed_code(code: bytes, parameters: int) -> bytes:
    """Return the code of a function with this number of parameters."""
    groups, at = number(code, 0)
    start, locals_before = at, 0
    for _ in range(groups):
        count, at = number(code, at)
        locals_before, at = locals_before + count, at + 1
    body, types, before = Body(parameters + locals_before), code[start:at], -1
    while at < len(code):
        end = end_of(code, at)
        begin = len(body.out)
        body.add(code[at:end], before)
        before = begin if code[at] in PUSHES else -1
        at = end
    added = b"".join(bytes([1, kind]) for kind in body.saved)
    return written(groups + len(body.saved)) + types + added + bytes(body.out)


def sections(module: bytes) -> Iterator[tuple[int, bytes]]:
    """Yield the sections of a module: their kinds and contents."""
    if module[:8] != b"\0asm\1\0\0\0":
        raise Unknown("not a module")
    at = 8
    while at < len(module):
        kind = module[at]
        size, at = number(module, at + 1)
        yield kind, module[at : at + size]
        at += size


def parameters_of(types: bytes) -> list[int]:
    """Return the number of parameters of each function type."""
    count, at = number(types, 0)
    counts = []
    for _ in range(count):
        if types[at] != 0x60:
            raise Unknown("a type that is not of a function")
        parameters, at = number(types, at + 1)
        counts.append(parameters)
        results, at = number(types, at + parameters)
        at += results
    return counts


def functions_of(section: bytes, counts: list[int]) -> Iterator[int]:
    """Yield the number of parameters of each function."""
    count, at = number(section, 0)
    for _ in range(count):
        kind, at = number(section, at)
        yield counts[kind]


def narrowed_codes(section: bytes, functions: list[int]) -> bytes:
    """Return the section of code."""
    count, at = number(section, 0)
    out = bytearray(written(count))
    for parameters in functions[:count]:
        size, at = number(section, at)
        code = narrowed_code(section[at : at + size], parameters)
        out += written(len(code)) + code
        at += size
    return bytes(out)


def narrowed_limits(section: bytes, at: int) -> bytes:
    """Return a section of one memory or one table, whose limits are at `at`."""
    if section[0] != 1 or section[at] & ~(IS_64 | 1) or not section[at] & IS_64:
        raise Unknown("not one memory of 64 bits")
    return section[:at] + bytes([section[at] & ~IS_64]) + section[at + 1 :]


def narrowed_data(section: bytes) -> bytes:
    """Return the section of data. A constant is the address of each part."""
    count, at = number(section, 0)
    out = bytearray(section[:at])
    for _ in range(count):
        if section[at : at + 2] != bytes([0, I64_CONST]):
            raise Unknown("data at an address that is not a constant")
        end = after(section, at + 2)
        size, start = number(section, end + 1)
        out += bytes([0, I32_CONST]) + section[at + 2 : start + size]
        at = start + size
    return bytes(out)


def exports(module: bytes) -> Iterator[str]:
    """Yield the names that a module exports."""
    for kind, section in sections(module):
        count, at = number(section, 0) if kind == EXPORT else (0, 0)
        for _ in range(count):
            size, at = number(section, at)
            yield section[at : at + size].decode()
            at = after(section, at + size + 1)


def narrowed(module: bytes) -> bytes:
    """Return the module with a memory of 32 bits. Its calls have the same types."""
    out, functions, counts = bytearray(module[:8]), list[int](), list[int]()
    try:
        for kind, section in sections(module):
            if kind not in KNOWN:
                raise Unknown(f"section {kind}")
            if kind == TYPE:
                counts = parameters_of(section)
            elif kind == FUNCTION:
                functions = list(functions_of(section, counts))
            elif kind == TABLE:
                section = narrowed_limits(section, 2)
            elif kind == MEMORY:
                section = narrowed_limits(section, 1)
            elif kind == CODE:
                section = narrowed_codes(section, functions)
            elif kind == DATA:
                section = narrowed_data(section)
            elif kind == CUSTOM and section[1 : 1 + section[0]] == b"target_features":
                continue  # it names the 64 bits of the memory
            out += bytes([kind]) + written(len(section)) + section
    except Unknown as unknown:
        sys.exit(f"page: the module has what this script does not know, {unknown}")
    return bytes(out)
