"""Hooks of mkdocs that make a site of the repository's pages.

The README is the first page, and the other pages at the top of the repository are part of the site.
Below docs/, only the site's folders are pages. Lists that a script writes are read in the
repository. A link to a file that is outside of the site becomes the path of that file, so that the
site has no dead links.
"""

from __future__ import annotations

import importlib
import os
import re
import sys
from pathlib import Path
from typing import Any

from mkdocs.structure.files import File, Files

TOP = Path(__file__).resolve().parent.parent
FOLDERS = ("tutorials", "guides", "reference", "concepts", "dev", "pictures")
PAGES = (
    "faq.md",
    "site.css",
    "ERRORS.md",
    "FORMATS.md",
    "EMBEDDING.md",
    "DEFINITIONS.md",
    "PROMISES.md",
    "ARCHITECTURE.md",
    "CHANGING.md",
)
TOP_PAGES = ("README.md", "CHANGELOG.md", "CONTRIBUTING.md", "SECURITY.md")
LISTS = (
    "dev/mutants.md",
    "dev/mutants-logs.md",
    "dev/mutants-program.md",
    "dev/architecture/modules.md",
    "dev/architecture/modules-store.md",
    "dev/architecture/modules-above.md",
)
# The pages of classes that show what those inherit.
WITH_INHERITED = ("reference/store.md",)

PACKAGE = TOP / "python/src"
CLASS = re.compile(r"^::: sagas\.(\w+)$(?:\n    .*)*", re.M)
INHERITED = """

::: {}
    options:
      show_root_heading: false
      show_root_toc_entry: false
"""

FENCE = re.compile(r"^(```.*?^```[ ]*$)", re.M | re.S)
LINK = re.compile(r"(!?)\[([^\]]*)\]\(([^)\s#]+)(#[^)\s]*)?\)")


def is_of_site(uri: str) -> bool:
    """Whether a path below docs/ is part of the site."""
    if uri in LISTS:
        return False
    return uri in PAGES or (uri.split("/")[0] in FOLDERS and uri.endswith((".md", ".svg", ".png")))


def is_below(path: str, folder: str) -> bool:
    """Whether a file is somewhere below a folder."""
    return Path(path).is_relative_to(folder)


def on_startup(**_: Any) -> None:
    """Leave the folder of `./sagas`: it would be found as the package of that name."""
    os.chdir(TOP / "docs")
    sys.path.insert(0, str(PACKAGE))


def on_files(files: Files, config: Any, **_: Any) -> Files:
    """Keep the files of the site, and add the pages at the top of the repository."""
    pages = config["docs_dir"]
    kept = [
        file for file in files if not is_below(file.abs_src_path, pages) or is_of_site(file.src_uri)
    ]
    site, is_folder = config["site_dir"], config["use_directory_urls"]
    kept += [File(name, str(TOP), site, is_folder) for name in TOP_PAGES]
    return Files(kept)


def uri_of(path: Path) -> str | None:
    """The path of a repository's file within the site, if it is part of the site."""
    if path.parent == TOP and path.name in TOP_PAGES:
        return path.name
    if path.is_relative_to(TOP / "docs"):
        uri = path.relative_to(TOP / "docs").as_posix()
        return uri if is_of_site(uri) else None
    return None


def link_in_site(link: re.Match[str], page: Path, uri: str) -> str:
    """A link of a page as the site has it."""
    mark, text, target, anchor = link[1], link[2], link[3], link[4] or ""
    path = Path(os.path.normpath(page.parent / target))
    if ":" in target or not path.exists():
        return link[0]
    there = uri_of(path)
    if there is not None:
        return f"{mark}[{text}]({os.path.relpath(there, os.path.dirname(uri) or '.')}{anchor})"
    name = f"`{path.relative_to(TOP).as_posix()}`"
    return name if text.strip("`") in (path.name, name.strip("`")) else f"{text} ({name})"


def with_inherited(directive: re.Match[str]) -> str:
    """The directive for a public class, and others for the classes that it inherits calls from."""
    bases = getattr(getattr(importlib.import_module("sagas"), directive[1]), "__mro__", ())[1:]
    ours = [base for base in bases if base.__module__.startswith("sagas.")]
    public = [base for base in ours if any(not name.startswith("_") for name in vars(base))]
    names = [f"{base.__module__}.{base.__qualname__}" for base in public]
    return directive[0] + "".join(INHERITED.format(name) for name in names)


def on_page_markdown(markdown: str, page: Any, **_: Any) -> str:
    """Rewrite the links of a page, outside of its code."""
    uri = page.file.src_uri
    source = TOP / uri if uri in TOP_PAGES else TOP / "docs" / uri
    parts = FENCE.split(markdown)
    for number in range(0, len(parts), 2):
        parts[number] = LINK.sub(lambda link: link_in_site(link, source, uri), parts[number])
    text = "".join(parts)
    return CLASS.sub(with_inherited, text) if uri in WITH_INHERITED else text
