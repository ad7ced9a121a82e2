"""The script that retargets a module: its changes, and its end at unknown parts."""

from __future__ import annotations

import sys
from pathlib import Path

import pytest

sys.path.insert(0, str(Path(__file__).resolve().parent.parent.parent / "page"))

from retarget import retargeted  # noqa: E402

MODULE = """target datalayout = "e-m:e-p270:32:32-i64:64"
target triple = "x86_64-unknown-linux-gnu"

define internal i64 @inner(i64 %a) #0 {
  %b = add i64 %a, 1
  ret i64 %b
}

define i32 @sagas_plan(ptr %a, i64 %b) #0 {
  %c = call { i64, ptr } @rattle_alloc(i64 %b, i64 8)
  call void @llvm.memset.p0.i64(ptr %a, i8 0, i64 %b, i1 false)
  ret i32 0
}

declare { i64, ptr } @rattle_alloc(i64, i64) #1
declare void @llvm.memset.p0.i64(ptr, i8, i64, i1) #1
attributes #0 = { nounwind "probe-stack"="inline-asm" "target-cpu"="x86-64-v2" \
"target-features"="+sse3" "tune-cpu"="generic" }
attributes #1 = { nounwind }
"""


def test_what_changes() -> None:
    made = retargeted(MODULE)
    assert 'target triple = "wasm64-unknown-unknown"' in made and "x86" not in made
    assert (
        '"wasm-export-name"="sagas_plan"' in made
        and 'define internal i32 @"rattle::export sagas_plan"(ptr %a, i64 %b) #0 {' in made
    )
    assert "  %b = add i64 %a, 1\n  ret i64 %b\n}" in made


def test_an_export_that_is_left_out() -> None:
    other = MODULE.replace(
        "define i32 @sagas_plan",
        "define noundef i32 @sagas_open(ptr %a) #0 {\n  ret i32 1\n}\n\ndefine i32 @sagas_plan",
    )
    made = retargeted(other, frozenset({"sagas_open"}))
    assert (
        "define internal noundef i32 @sagas_open(ptr %a) #0 {" in made
        and '"wasm-export-name"="sagas_open"' not in made
    )
    with pytest.raises(SystemExit, match="no export sagas_reply"):
        retargeted(other, frozenset({"sagas_reply"}))


@pytest.mark.parametrize(
    "line",
    [
        "declare i64 @time(ptr)\n",
        "declare void @llvm.x86.sse2.pause()\n",
        'define internal void @a() {\n  call void asm sideeffect "nop", ""()\n  ret void\n}\n',
        "@counter = internal thread_local global i64 0\n",
        "define internal double @a(double %b) {\n"
        "  %c = fadd fast double %b, %b\n  ret double %c\n}\n",
        "define void @other() {\n  ret void\n}\n",
        'target triple = "x86_64-unknown-linux-gnu"\n',
    ],
    ids=[
        "a function",
        "an intrinsic",
        "assembly",
        "a thread's global",
        "a float's flag",
        "an export",
        "two targets",
    ],
)
def test_it_stops_at_what_it_does_not_know(line: str) -> None:
    with pytest.raises(SystemExit, match="page: the module has what this script does not know"):
        retargeted(MODULE + line)
