"""Compare the pages of definitions, promises and crates in docs/dev with the crates.

The script lists words that specs/ declare, and words that contracts of public calls cite, which the
pages in docs/dev/definitions do not have for that crate. It lists entries of these pages whose file
does not have the word. A word is an abbreviation, a function, a record or a data type, and no field
or lemma. The script does not check what an entry says. It checks that each crate has a page of
promises, that the crate has the calls on that page, and that the page on the architecture of the
core has the crates of crates.txt.

A public call is a function that src/lib.rt of a crate exports, or a public method of an exported
type. Of a static library it is each call for C, and of the program a call that its promises name.
The script prints a line for each fault, and its status is 1 if it has found one.
"""
import pathlib
import re
import sys
import textwrap

ROOT = pathlib.Path(__file__).resolve().parent.parent
PROGRAM = {"check_input", "judge_record", "read_words", "run"}

# Programs without promises, and those whose promises no other crate uses.
SILENT = {"saga_trials"}

DECLARED = re.compile(
    r"^ *(?:(?:abbrev|unfoldable)(?: pub)?|(?:pub )?(?:record|data)) ([^\s{:(]+)(?=[\s:({])", re.M
)
CITED = re.compile(r"ghost use Rattle\.(saga_\w+)\.specs\.([\w.]+)\.\{([^}]*)\}")
EXPORTED = re.compile(r"^pub use (?:crate::)?[\w:]+::(?:\{([^}]*)\}|(\w+));", re.M)
FOR_C = re.compile(r'^#\[unsafe\(no_mangle\)\]\npub extern "C" fn (\w+)', re.M)
CALL = re.compile(r'^( *)pub (?:const )?(?:extern "C" )?fn (\w+)\b.*?(?:\n\1\{|;$)', re.M | re.S)
IMPL = re.compile(r"^impl\b[^{]*?\b(?:for )?(\w+)(?:<[^>]*>)? \{(.*?)^\}", re.M | re.S)


def exported(crate):
    """Return the names that a library exports, or the calls of the program that the pages name."""
    library = crate / "src" / "lib.rt"
    if not library.exists():
        return PROGRAM
    exports = EXPORTED.findall(library.read_text(encoding="utf-8"))
    for_c = {
        name
        for path in crate.glob("src/*.rt")
        for name in FOR_C.findall(path.read_text(encoding="utf-8"))
    }
    lists = [several or single for several, single in exports]
    return for_c | {name.strip() for names in lists for name in names.split(",")}


def public_calls(text, names):
    """Yield the heads of the exported functions and public methods, with their contracts."""
    for impl in IMPL.finditer(text):
        if impl[1] in names:
            yield from (call[0] for call in CALL.finditer(impl[2]))
    yield from (call[0] for call in CALL.finditer(text) if not call[1] and call[2] in names)


def cited(crate):
    """Yield the words of specs/ in the contracts of a crate's public calls, with their files."""
    names = exported(crate)
    for path in sorted((crate / "src").rglob("*.rt")):
        text = path.read_text(encoding="utf-8")
        files_by_word = {
            word.strip(): f"{spec[0]}/specs/{spec[1]}"
            for spec in CITED.findall(text)
            for word in spec[2].split(",")
            if word.strip()
        }
        for head in public_calls(text, names):
            yield from (
                (word, file)
                for word, file in files_by_word.items()
                if re.search(rf"(?<![\w.]){re.escape(word)}(?!\w)", head)
            )


def declared():
    """Yield the words that the files of specs/ declare: crate, file and word."""
    for path in sorted((ROOT / "crates").glob("*/specs/**/*.antt")):
        crate = path.relative_to(ROOT / "crates").parts[0]
        yield from (
            (crate, path.name, word) for word in DECLARED.findall(path.read_text(encoding="utf-8"))
        )


def entries():
    """Yield the entries of the pages of definitions: crate, file and word."""
    for page in sorted((ROOT / "docs/dev/definitions").glob("*.md")):
        crate = None
        text = re.sub(r"\n  +", " ", page.read_text(encoding="utf-8"))
        for heading, cell, file in re.findall(
            r"^## .*?(?:`crates/(\w+)/specs`)?$|^- (`.*?) in `(\w+\.antt)`\. ", text, re.M
        ):
            crate = heading or crate
            yield from ((crate, file, word) for word in re.findall(r"`([^`]+)`", cell))


def strange_entries(listed):
    """Yield entries whose file does not exist, or does not have the word."""
    for crate, file, word in sorted(listed):
        path = ROOT / "crates" / crate / "specs" / file
        if not path.exists() or not re.search(
            rf"(?<!\w){re.escape(word)}(?!\w)", path.read_text(encoding="utf-8")
        ):
            yield f"crates/{crate}/specs/{file} has no {word}, as docs/dev/definitions says"


def strange_promises(crates):
    """Yield crates without a page, pages without a crate, and promised calls that do not exist."""
    pages = {
        page.stem: page.read_text(encoding="utf-8")
        for page in (ROOT / "docs/dev/promises").glob("*.md")
    }
    index = re.findall(
        r"\(dev/promises/(saga_\w+)\.md\)", (ROOT / "docs/PROMISES.md").read_text(encoding="utf-8")
    )
    for name in sorted(set(pages) ^ crates):
        yield f"{name} has {'no crate' if name in pages else 'no page in docs/dev/promises'}"
    for name in sorted(set(index) ^ set(pages)):
        yield f"only {'docs/PROMISES.md' if name in index else 'docs/dev/promises'} has {name}"
    for name in sorted(set(pages) & crates):
        source = "".join(
            path.read_text(encoding="utf-8")
            for path in sorted((ROOT / "crates" / name / "src").rglob("*.rt"))
        )
        specs = "".join(
            path.read_text(encoding="utf-8")
            for path in sorted((ROOT / "crates" / name / "specs").rglob("*.antt"))
        )
        for evidence in re.findall(
            r"^\*\*Evidence\.\*\* (.*?)(?:\n\n|\Z)", pages[name], re.M | re.S
        ):
            for call in re.findall(r"`(?:\w+::)*(\w+)`", evidence):
                if not re.search(rf"\b{call}\b", source + specs) and call not in crates:
                    yield f"docs/dev/promises/{name}.md names {call}, which the crate does not have"


def misplaced_crates():
    """Yield crates that are not in both lists, and those before a crate that they need."""
    page = (ROOT / "docs/dev/architecture/crates.md").read_text(encoding="utf-8")
    listed = re.findall(r"^\| `(saga_\w+)` \|", page, re.M)
    lines = [
        line.partition(":")
        for line in (ROOT / "crates.txt").read_text(encoding="utf-8").splitlines()
    ]
    dependencies = {name.split()[0]: below.split() for name, colon, below in lines if colon}
    for name in sorted(set(dependencies) ^ set(listed)):
        list_of_crates = "crates.txt" if name in dependencies else "docs/dev/architecture/crates.md"
        yield f"only {list_of_crates} has {name}"
    for position, name in enumerate(listed):
        for below in dependencies.get(name, []):
            if below in listed[position:]:
                yield f"docs/dev/architecture/crates.md has {name} before {below}, which it needs"


def other_examples():
    """Yield the crates whose head has another example than the one that `saga_tests` runs."""
    source = (ROOT / "crates" / "saga_tests" / "src" / "examples.rt").read_text(encoding="utf-8")
    for crate, body in re.findall(r"^fn of_(\w+)\b.*?\{\n(.*?)^\}", source, re.M | re.S):
        head = (ROOT / "crates" / crate / "src" / "lib.rt").read_text(encoding="utf-8")
        shown = re.search(r"^//! ```\n(.*?)^//! ```$", head, re.M | re.S)
        if shown is None or re.sub(r"^//! ?", "", shown[1], flags=re.M) != textwrap.dedent(body):
            yield (
                f"crates/{crate}/src/lib.rt has another example than "
                "crates/saga_tests/src/examples.rt"
            )


def main():
    listed = set(entries())
    known = {(crate, word) for crate, _, word in listed}
    crates = [
        crate
        for crate in sorted((ROOT / "crates").iterdir())
        if crate.is_dir() and crate.name not in SILENT
    ]
    promising = {crate.name for crate in crates} - {"saga_tests"}
    citations = {citation for crate in crates for citation in cited(crate)}
    # The pages have no types and constants of the code.
    missing = sorted(
        (file, word)
        for word, file in citations
        if (file.split("/")[0], word) not in known and "/declared." not in file
    )
    defined = set(declared())
    missing += sorted((f"{crate}/specs/{file}", word) for crate, file, word in defined - listed)
    for file, word in missing:
        print(f"docs/dev/definitions has no {word} ({file})")
    wrong = [
        *strange_entries(listed),
        *strange_promises(promising),
        *misplaced_crates(),
        *other_examples(),
    ]
    for line in wrong:
        print(line)
    print(
        f"definitions: {len(defined)} words, {len(citations)} of public contracts, "
        f"{len(missing)} missing; "
        f"{len(listed)} entries; {len(wrong)} entries, promises, crates or examples wrong"
    )
    return 1 if missing or wrong else 0


if __name__ == "__main__":
    sys.exit(main())
