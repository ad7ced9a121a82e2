"""Retarget an LLVM module from x86-64 to wasm64.

Both have pointers of 64 bits, are little-endian, and have the same sizes and alignments of integers
and floats. The module uses LLVM's own language and one instruction of x86, which is replaced by a
function. So only these parts change: triple and data layout, the attributes that name a processor,
that instruction, and the exports. Each export gets the guard that the kit's own modules for wasm64
have: a call into a module in which a call has trapped, or still runs, traps.

The program stops if it does not know a part of the module.
"""

from __future__ import annotations

import re
import sys

LAYOUT = "e-m:e-p:64:64-p10:8:8-p20:8:8-i64:64-i128:128-n32:64-S128-ni:1:10:20"
TRIPLE = "wasm64-unknown-unknown"
PROCESSOR = '"target-cpu"="lime1"'

# The functions of heap.c, and the helpers that the kit has for wasm64.
HEAP = {"rattle_alloc", "rattle_realloc", "rattle_dealloc"}
HELPERS = {"__rattle_enter", "__rattle_leave", "__rattle_trap", "fmod", "fmodf"}

# The kit adds this to each function for wasm64, so that no loop becomes a call of a C library.
NO_LIBRARY = '"no-builtin-bcmp" "no-builtin-memcmp" "no-builtin-strlen" '

# The intrinsics that mean the same on each target.
GENERIC = set(
    "memset memmove memcpy trap frameaddress ctlz cttz ctpop bswap bitreverse assume expect "
    "umul.with.overflow uadd.with.overflow usub.with.overflow smul.with.overflow "
    "sadd.with.overflow ssub.with.overflow uadd.sat usub.sat sadd.sat ssub.sat "
    "umin umax smin smax abs fshl fshr lifetime.start lifetime.end fptosi.sat fptoui.sat "
    "floor ceil trunc rint fabs copysign sqrt fma round roundeven "
    "vector.reduce.and vector.reduce.or vector.reduce.xor vector.reduce.add vector.reduce.umax "
    "vector.reduce.umin experimental.noalias.scope.decl arithmetic.fence".split()
)

# The one instruction of x86, PSHUFB of 16 bytes. If the top bit of a mask is set, the byte is 0.
# Else the low four bits of the mask are the index of the byte.
SHUFFLE = "llvm.x86.ssse3.pshuf.b.128"

# The parts that have no meaning on wasm64, or another one.
FOREIGN = (
    (r"\basm\b", "inline assembly"),
    (r"thread_local", "a thread's global"),
    (r"\bx86_\w+", "a type of x86"),
    (r"addrspace\(", "another space of addresses"),
    (r"\bx86\w*cc\b|\bwin64cc\b|\bpreserve_\w+cc\b|\bghccc\b", "a calling convention"),
    (r"\b(fast|reassoc|nnan|ninf|nsz|arcp|contract|afn)\b", "a float's flag"),
    (r"\bppc_fp128\b|\bfp128\b", "a type of other processors"),
    (r"\bva_arg\b", "a variable list of arguments"),
)


class Unknown(Exception):
    """The module has a part without a known meaning on wasm64."""


def look(text: str) -> None:
    """Raise `Unknown` if a part has no meaning, or another one, on wasm64."""
    for name in re.findall(r'(?m)^declare .*?@"?([\w.:]+)"?\(', text):
        if name.startswith("llvm.") and name != SHUFFLE:
            base = name.removeprefix("llvm.")
            if not any(base == known or base.startswith(f"{known}.") for known in GENERIC):
                raise Unknown(f"an intrinsic: {name}")
        elif name != SHUFFLE and name not in HEAP | HELPERS:
            raise Unknown(f"a function: {name}")
    for line in text.split("\n"):
        if line.startswith("attributes"):
            continue
        code = re.sub(r'c?"[^"]*"', "", line.split(";")[0])
        for pattern, name in FOREIGN:
            if re.search(pattern, code):
                raise Unknown(f"{name}: {line[:120]}")


def shuffled(text: str) -> str:
    """Replace the one instruction of x86 by a function."""
    declaration = re.search(
        rf"(?m)^declare <16 x i8> @{re.escape(SHUFFLE)}\(<16 x i8>, <16 x i8>\) #\d+\n", text
    )
    if declaration is None:
        return text
    lines = [
        "define internal <16 x i8> @sagas.shuffle(<16 x i8> %bytes, <16 x i8> %mask) #898 {",
        "start:",
    ]
    lines += [
        "  %from = alloca <16 x i8>, align 16",
        "  store <16 x i8> %bytes, ptr %from, align 16",
    ]
    last = "zeroinitializer"
    for i in range(16):
        lines += [
            f"  %m{i} = extractelement <16 x i8> %mask, i64 {i}",
            f"  %z{i} = icmp slt i8 %m{i}, 0",
            f"  %l{i} = and i8 %m{i}, 15",
        ]
        lines += [
            f"  %w{i} = zext i8 %l{i} to i64",
            f"  %p{i} = getelementptr i8, ptr %from, i64 %w{i}",
            f"  %b{i} = load i8, ptr %p{i}, align 1",
        ]
        lines += [
            f"  %s{i} = select i1 %z{i}, i8 0, i8 %b{i}",
            f"  %v{i} = insertelement <16 x i8> {last}, i8 %s{i}, i64 {i}",
        ]
        last = f"%v{i}"
    text = text.replace(declaration[0], "\n".join([*lines, f"  ret <16 x i8> {last}", "}", ""]))
    return (
        text.replace(f"@{SHUFFLE}(", "@sagas.shuffle(")
        + f"\nattributes #898 = {{ nounwind {NO_LIBRARY}{PROCESSOR} }}\n"
    )


def guarded(text: str, name: str, group: int) -> str:
    """Add the kit's guard to an export, with attributes of this number."""
    head = re.search(rf"(?m)^define ([^\n]*?)@{name}\(([^\n]*)\) #(\d+) \{{$", text)
    if head is None:
        raise Unknown(f"the head of {name}")
    kind, parameters, inner = head[1], head[2], head[3]
    types = [parameter.strip().split(" ")[0] for parameter in parameters.split(",")]
    result = kind.split(" ")[-2]
    if result == "void":
        raise Unknown(f"{name}, which returns nothing")
    arguments = ", ".join(f"{kind_of} %a{i}" for i, kind_of in enumerate(types))
    outer = f"""define {kind}@{name}({parameters}) #{group} {{
start:
  %r0 = call i1 @__rattle_enter()
  br i1 %r0, label %spent, label %run

spent:
  call void @__rattle_trap()
  unreachable

run:
  %r1 = call {result} @"rattle::export {name}"({arguments})
  call void @__rattle_leave()
  ret {result} %r1
}}
"""
    attributes = (
        f'attributes #{group} = {{ nounwind {NO_LIBRARY}"wasm-export-name"="{name}" {PROCESSOR} }}'
    )
    inner_head = f'define internal {kind}@"rattle::export {name}"({parameters}) #{inner} {{'
    return text.replace(head[0], f"{outer}\n{inner_head}") + f"\n{attributes}\n"


def attributes(line: str) -> str:
    """Return a line of attributes for wasm64."""
    line = re.sub(r' "(target-features|tune-cpu)"="[^"]*"', "", line)
    line = re.sub(r'"target-cpu"="[^"]*"', PROCESSOR, line)
    return line.replace(' "probe-stack"', f' {NO_LIBRARY}"probe-stack"')


def without(text: str, left_out: frozenset[str]) -> str:
    """Return the module without these exports."""
    for name in left_out:
        text, count = re.subn(
            rf"(?m)^define (?!internal|private)([^\n]*?@{name}\()", r"define internal \1", text
        )
        if count != 1:
            raise Unknown(f"no export {name} to be left out")
    return text


def retargeted(text: str, left_out: frozenset[str] = frozenset()) -> str:
    """Return the module for wasm64, without some of the exports."""
    try:
        look(text)
        text = without(text, left_out)
        exports = sorted(
            set(re.findall(r"(?m)^define (?!internal|private)[^\n]*?@(sagas_\w+)\(", text))
        )
        others = set(re.findall(r"(?m)^define (?!internal|private)[^\n]*?@(\w+)\(", text)) - set(
            exports
        )
        if others or not exports:
            raise Unknown(f"exports: {sorted(others)}")
        text, layouts = re.subn(
            r'(?m)^target datalayout = ".*"$', f'target datalayout = "{LAYOUT}"', text
        )
        text, triples = re.subn(r'(?m)^target triple = ".*"$', f'target triple = "{TRIPLE}"', text)
        if (layouts, triples) != (1, 1):
            raise Unknown("no single target")
        text = shuffled(
            re.sub(r"(?m)^attributes #\d+ = .*$", lambda line: attributes(line[0]), text)
        )
        for number, name in enumerate(exports):
            text = guarded(text, name, 900 + number)
    except Unknown as unknown:
        sys.exit(f"page: the module has what this script does not know, {unknown}")
    guard = [
        "declare noundef zeroext i1 @__rattle_enter() #899",
        "declare void @__rattle_leave() #899",
        "declare void @__rattle_trap() #899",
    ]
    return "\n".join([text, *guard, "attributes #899 = { nounwind }", ""])
