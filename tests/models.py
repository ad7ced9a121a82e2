"""Compare the tables of models/ with the models, and with the functions of the program.

Each row of the table of names in README.md has a model, a name in it, a function, and its file. The
function is one of Python or of Rattle, or a constant of Python. The script also checks that
README.md explains each property. Each model has a configuration, each mutant of a model is in
mutants.txt, and each property finds a mutant. The script prints a line for each error; its status
is 1 if there is any.
"""

from __future__ import annotations

import re
import sys
from collections.abc import Iterator
from pathlib import Path

TOP = Path(__file__).resolve().parent.parent
MODELS = TOP / "models"
ROW = re.compile(r"^\| `([\w/]+\.pml)` \| `(\w+)` \| `(\w+)` \| `([\w/]+\.(?:py|rt))` \|$", re.M)
FLAG = re.compile(r"(?:\bifn?def |\bdefined\()([a-z]\w*)")
"""A mutant in a model: a flag in lower case."""
FOLDERS = {".py": TOP / "python/src/sagas", ".rt": TOP / "crates"}
"""The folders of the files."""
FUNCTIONS = {
    ".py": r"^\s*(?:(?:async )?def|class) {0}\b|^{0}(?::[^=\n]*)? = ",
    ".rt": r"^\s*(?:pub )?(?:ghost )?fn {0}\b",
}
"""The forms of a definition, by the ending of its file."""


def errors(readme: str) -> Iterator[str]:
    """Yield what is wrong with the tables of a README."""
    rows = ROW.findall(readme)
    if not rows:
        yield "models/README.md has no table of names"
    for model, name, function, file in rows:
        model_path, path = MODELS / model, FOLDERS[Path(file).suffix] / file
        if not model_path.exists() or not _has(model_path, rf"(?<!\w){name}(?!\w)"):
            yield f"models/{model} has no {name}"
        if not path.exists() or not _has(path, FUNCTIONS[path.suffix].format(function)):
            yield f"{file} has no {function}, the function of {name} in models/{model}"
    named = {model for model, *_ in rows}
    for path in sorted(MODELS.glob("*.pml")):
        is_listed = any(row.startswith((path.name, f"{path.stem}/")) for row in named)
        if not is_listed and path.name != "properties.pml":
            yield f"models/README.md has no name of models/{path.name}"
    for name in _property_names():
        if f"\n- `{name}`: " not in readme:
            yield f"models/README.md does not explain {name}"


def mutant_errors() -> Iterator[str]:
    """Yield mutants and models that the tables do not have, and properties without a mutant."""
    mutants = [line.split() for line in _lines("mutants.txt")]
    configured = {line.split()[2] for line in _lines("configurations.txt")}
    listed = {(model, mutant) for mutant, _, model, *_ in mutants}
    built = set()
    for path in sorted(MODELS.glob("**/*.pml")):
        model = path.relative_to(MODELS).parts[0].removesuffix(".pml")
        built |= {(model, name) for name in FLAG.findall(path.read_text(encoding="utf-8"))}
        if model not in configured | {"properties"}:
            yield f"models/configurations.txt has no configuration of {model}.pml"
    for model, mutant in sorted(built ^ listed):
        file = "models/mutants.txt" if (model, mutant) in built else f"models/{model}.pml"
        yield f"{file} has no {mutant} of {model}.pml"
    for name in sorted({*_property_names()} ^ {finder for _, finder, *_ in mutants}):
        yield f"models/mutants.txt and models/properties.pml do not both have {name}"


def _lines(name: str) -> list[str]:
    lines = (MODELS / name).read_text(encoding="utf-8").splitlines()
    return [line for line in lines if line and not line.startswith("#")]


def _property_names() -> list[str]:
    text = (MODELS / "properties.pml").read_text(encoding="utf-8")
    return re.findall(r"^#define (\w+) \d+$", text, re.M)


def _has(path: Path, pattern: str) -> bool:
    return re.search(pattern, path.read_text(encoding="utf-8"), re.M) is not None


def main() -> int:
    readme = (MODELS / "README.md").read_text(encoding="utf-8")
    wrong = [*errors(readme), *mutant_errors()]
    for line in wrong:
        print(line)
    names, mutants = len(ROW.findall(readme)), len(_lines("mutants.txt"))
    print(f"tables of models: {names} names, {mutants} mutants, {len(wrong)} wrong")
    return 1 if wrong else 0


if __name__ == "__main__":
    sys.exit(main())
