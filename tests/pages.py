"""Run each command on the pages, and compare its output with the page.

    tests/pages.py           README.md and the pages in docs/
    tests/pages.py --site    the pages of the documentation site: docs/ and its folders

A command is a line that begins with `$ ` in a fenced block of a page. The lines up to the next
command or the end of the block are its output, on standard output and standard error together.
`...` at the end means any further lines, and a time of day means any time. A block below a line
that ends in "as `NAME`:" is saved as the file NAME. The commands of a page run in order in a
temporary folder, which has the examples and the program. The path has `python` and `sagas` as if
the package were installed. docs/tutorials/service.md and docs/guides/celery.md leave programs
running, so python/tests runs them.
"""

import os
import pathlib
import re
import subprocess
import sys
import tempfile

ROOT = pathlib.Path(__file__).resolve().parent.parent
SKIPPED = tuple(ROOT / "docs" / name for name in ("tutorials/service.md", "guides/celery.md"))
FOLDERS = ("tutorials", "guides", "reference", "concepts", "dev")
# The time limit of a command, in seconds. Each takes a few at most.
LIMIT = 120

BLOCK = re.compile(r"(?:as `([\w./-]+)`:\n\n)?^```\w*\n(.*?)^```", re.M | re.S)
TIME = re.compile(r"\d{4}-\d\d-\d\d[T ]\d\d:\d\d:\d\d(?:\.\d+)?Z?")

# The programs on the path of the commands.
PROGRAMS = {
    "python": 'exec /usr/bin/python3 "$@"',
    "sagas": 'exec /usr/bin/python3 -m sagas "$@"',
}


def parts(page):
    """Yield the parts of a page in order: a file's name and text, or a command and its output."""
    for name, block in BLOCK.findall(page.read_text(encoding="utf-8")):
        if name:
            yield "save", name, block
            continue
        for shown in re.split(r"^\$ ", block, flags=re.M)[1:]:
            command, _, printed = shown.partition("\n")
            yield "run", command, printed


def agrees(output, expected):
    """Return whether the output of a command is that of the page."""
    output, expected = (TIME.sub("TIME", text) for text in (output, expected))
    if expected.endswith("...\n"):
        return output.startswith(expected[: -len("...\n")])
    return output == expected


def furnish(folder):
    """Prepare a folder for commands, and return their environment."""
    for name in ["examples", "crates", "clients", "python", "dist", "docs", "bench"]:
        (folder / name).symlink_to(ROOT / name)
    scripts = {folder / "sagas": f'exec "{ROOT}/sagas" "$@"'}
    (folder / ".bin").mkdir()
    scripts |= {folder / ".bin" / name: text for name, text in PROGRAMS.items()}
    for path, text in scripts.items():
        path.write_text(f"#!/bin/sh\n{text}\n", encoding="utf-8")
        path.chmod(0o755)
    # Without buffers, standard output and standard error are in order of time.
    return os.environ | {
        "PATH": f"{folder}/.bin:{os.environ['PATH']}",
        "PYTHONPATH": str(ROOT / "python/src"),
        "PYTHONUNBUFFERED": "1",
        "PYTHONDONTWRITEBYTECODE": "1",
    }


def tried(page):
    """Run the commands of a page, and return their number, and the number of differences."""
    runs = wrong = 0
    with tempfile.TemporaryDirectory() as name:
        folder = pathlib.Path(name)
        environment = furnish(folder)
        for kind, content, expected in parts(page):
            if kind == "save":
                (folder / content).write_text(expected, encoding="utf-8")
                continue
            done = subprocess.run(
                ["timeout", "--kill-after=5", str(LIMIT), "bash", "-c", content],
                cwd=folder,
                env=environment,
                stdin=subprocess.DEVNULL,
                stdout=subprocess.PIPE,
                stderr=subprocess.STDOUT,
                text=True,
                check=False,
            )
            runs += 1
            if not agrees(done.stdout, expected):
                wrong += 1
                print(f"wrong in {page.relative_to(ROOT)}: $ {content}")
                print(f"{done.stdout}instead of\n{expected}", end="", flush=True)
    return runs, wrong


def main():
    folders = [sorted((ROOT / "docs" / name).rglob("*.md")) for name in FOLDERS]
    site = [ROOT / "docs/faq.md", *(page for pages in folders for page in pages)]
    others = [ROOT / "README.md", *sorted((ROOT / "docs").glob("*.md"))]
    pages = site if sys.argv[1:] == ["--site"] else [page for page in others if page not in site]
    pages = [page for page in pages if page not in SKIPPED]
    results = [tried(page) for page in pages]
    runs, wrong = (sum(numbers) for numbers in zip(*results))
    print(f"pages: {runs} commands, {wrong} print something else")
    return 1 if wrong or not runs else 0


if __name__ == "__main__":
    sys.exit(main())
