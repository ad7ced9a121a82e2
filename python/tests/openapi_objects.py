"""The objects of OpenAPI 3.1, as the tables of the specification define them.

They say which fields each object may and must have, and their types. Debian's package
`openapi-specification` has the text, and no JSON Schema of 3.1.
"""

from __future__ import annotations

import dataclasses
import pathlib
import re
from collections.abc import Iterator
from typing import Any

import jsonschema

TEXT = pathlib.Path("/usr/share/openapi-specification/versions/3.1.0.md")
OBJECT = re.compile(r'^#### <a name="\w+"></a>(.+?) Object$(.*?)(?=^#### |\Z)', re.M | re.S)
ROW = re.compile(r"^<a name=\"\w+\"></a>(.+)$", re.M)
WORD = re.compile(
    r"\[\{expression\}\]\(#\w+\)|Map\[|\[(\w[\w ]*) Object\]\(#\w+\)|\[|\]|`(\w+)`|\\\||,|Any"
)
KINDS = {"string": str, "boolean": bool}
ANNOTATIONS = {
    "$comment",
    "$defs",
    "$id",
    "$ref",
    "$schema",
    "title",
    "description",
    "default",
    "deprecated",
    "examples",
    "example",
    "readOnly",
    "writeOnly",
    "discriminator",
    "xml",
    "externalDocs",
    "contentEncoding",
    "contentMediaType",
}


@dataclasses.dataclass(frozen=True)
class Of:
    """A type: `word` is an object's name, `string`, `boolean`, `any`, `list`, `map` or `or`."""

    word: str
    parts: tuple[Of, ...] = ()


@dataclasses.dataclass
class Rules:
    """The fields of an object by name, its required fields, and the types of other fields by
    pattern. A field may be required only for one `type`.
    """

    fields: dict[str, Of] = dataclasses.field(default_factory=dict)
    required: dict[str, str] = dataclasses.field(default_factory=dict)
    patterns: dict[str, Of] = dataclasses.field(default_factory=dict)


def type_of(cell: str) -> Of:
    """Return the type in a cell of a table."""
    tokens = [match for match in WORD.finditer(cell)]

    def parse_part() -> Of:
        match = tokens.pop(0)
        text = match[0]
        if text == "Map[":
            parse_part()  # of the names: always `string`
            tokens.pop(0)
            return closed("map")
        if text == "[":
            return closed("list")
        return Of("any") if text == "Any" or "{" in text else Of(match[1] or match[2])

    def some() -> Of:
        parts = [parse_part()]
        while tokens and tokens[0][0] == "\\|":
            tokens.pop(0)
            parts.append(parse_part())
        return parts[0] if len(parts) == 1 else Of("or", tuple(parts))

    def closed(word: str) -> Of:
        closed_type = Of(word, (some(),))
        tokens.pop(0)
        return closed_type

    return some()


def read() -> dict[str, Rules]:
    """Return the rules of all objects."""
    objects = {name: rules_of(text) for name, text in OBJECT.findall(TEXT.read_text())}
    header = Rules(dict(objects["Parameter"].fields), {}, dict(objects["Parameter"].patterns))
    for name in ("name", "in"):
        del header.fields[name]
    # "follows the structure of the Parameter Object", except for these
    return {
        **objects,
        "Header": header,
    }


def rules_of(text: str) -> Rules:
    """Return the rules of one object."""
    rules = Rules()
    for row in ROW.findall(text):
        cells = [cell.strip() for cell in re.split(r"(?<!\\)\|", row)]
        name, kind, *description = cells
        if "{" in name or "HTTP Status Code" in name:
            pattern = {"/{path}": "/.*", "{name}": ".*", "{expression}": ".*"}
            rules.patterns[pattern.get(name, r"[1-5](\d\d|XX)")] = type_of(kind)
            continue
        rules.fields[name] = type_of(kind)
        if description[-1].startswith("**REQUIRED**"):  # else of some only
            applies = re.search(r"`(\w+)`", description[0]) if len(description) > 1 else None
            rules.required[name] = applies[1] if applies else ""
    return rules


class Checker:
    """Compare a document with the rules."""

    def __init__(self) -> None:
        self.rules, self.seen = read(), dict[str, int]()

    def faults(self, value: Any, of: Of, path: str) -> Iterator[str]:
        """Return the errors of a value."""
        self.seen[of.word] = self.seen.get(of.word, 0) + 1
        if of.word == "or":
            is_reference = isinstance(value, dict) and "$ref" in value
            reference = Of("Reference")
            part = reference if is_reference and reference in of.parts else of.parts[0]
            yield from self.faults(value, part, path)
        elif of.word in KINDS:
            if not isinstance(value, KINDS[of.word]):
                yield f"{path}: it is not a {of.word}"
        elif of.word == "list":
            if not isinstance(value, list):
                yield f"{path}: it is not a list"
            for number, part in enumerate(value if isinstance(value, list) else ()):
                yield from self.faults(part, of.parts[0], f"{path}/{number}")
        elif of.word == "map":
            if not isinstance(value, dict):
                yield f"{path}: it is not a map"
            for name, part in value.items() if isinstance(value, dict) else ():
                yield from self.faults(part, of.parts[0], f"{path}/{name}")
        elif of.word == "Schema":
            yield from schema_faults(value, path)
        elif of.word != "any":
            yield from self._object(value, self.rules[of.word], path)

    def _object(self, value: Any, rules: Rules, path: str) -> Iterator[str]:
        if not isinstance(value, dict):
            yield f"{path}: it is not an object"
            return
        for name, kind_of_object in rules.required.items():
            if kind_of_object in ("", value.get("type")) and name not in value:
                yield f"{path}: {name} is missing"
        for name, kind_of_object in value.items():
            kind = rules.fields.get(name)
            for pattern, of in rules.patterns.items():
                kind = kind or (of if re.fullmatch(pattern, name) else None)
            if kind is not None:
                yield from self.faults(kind_of_object, kind, f"{path}/{name}")
            elif not name.startswith("x-") or name.startswith(("x-oai-", "x-oas-")):
                yield f"{path}: unknown field {name}"


def schema_faults(schema: Any, path: str) -> Iterator[str]:
    """Return the errors by the meta-schema of JSON Schema 2020-12, which must define each
    keyword.
    """
    try:
        jsonschema.Draft202012Validator.check_schema(schema)
    except jsonschema.SchemaError as error:
        yield f"{path}: {error.message}"
    yield from keyword_faults(schema, path)


def keyword_faults(schema: Any, path: str) -> Iterator[str]:
    """Return keywords that JSON Schema does not define, in a schema and those within it."""
    known = ANNOTATIONS | {*jsonschema.Draft202012Validator.VALIDATORS}
    for name in schema if isinstance(schema, dict) else ():
        if name not in known and not name.startswith("x-"):
            yield f"{path}: unknown keyword {name}"
    for inner, location in subschemas(schema):
        yield from keyword_faults(inner, f"{path}/{location}")


def subschemas(schema: Any) -> Iterator[tuple[Any, str]]:
    """Return the schemas within one, with their locations."""
    for name, value in schema.items() if isinstance(schema, dict) else ():
        if name in ("properties", "$defs", "patternProperties", "dependentSchemas"):
            yield from ((inner, f"{name}/{key}") for key, inner in value.items())
        elif name in ("oneOf", "anyOf", "allOf", "prefixItems"):
            yield from ((inner, f"{name}/{at}") for at, inner in enumerate(value))
        elif name in ("items", "additionalProperties", "not", "if", "then", "else", "contains"):
            yield value, name
