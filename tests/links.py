#!/usr/bin/env python3
"""Looks whether each path that a document names is there: links, paths in backticks that begin with a folder of the repository, and wrong bodies.

    tests/links.py
"""

import re
import sys
from pathlib import Path

ROOT = Path(__file__).resolve().parent.parent
DOCUMENTS = ["README.md", "CONTRIBUTING.md", "bench/README.md", "clients/README.md", *(str(path.relative_to(ROOT)) for path in sorted((ROOT / "docs").rglob("*.md")))]
LINK = re.compile(r"\]\(([^)#\s]+)(?:#[^)\s]*)?\)")
PATH = re.compile(r"`((?:bench|clients|crates|docs|examples|tests|\.ci)/[\w./-]+)`")
EDIT = re.compile(r"`([\w.]+--[\w-]+)`")
# made by a build, so not in a checkout
MADE = re.compile(r"/out/|/target/")


def missing(document):
    """The paths of a document that aren't there."""
    text = (ROOT / document).read_text()
    links = ((ROOT / document).parent / link for link in LINK.findall(text) if "://" not in link)
    paths = (ROOT / path for path in PATH.findall(text) if not MADE.search(path))
    edits = (edit for edit in EDIT.findall(text) if not any(ROOT.glob(f"crates/*/*/{edit}.edit")))
    return sorted({*(str(path) for path in (*links, *paths) if not path.exists()), *edits})


def main():
    wrong = [(document, path) for document in DOCUMENTS for path in missing(document)]
    for document, path in wrong:
        print(f"{document}: {path} isn't there")
    print(f"{len(DOCUMENTS)} documents, {len(wrong)} paths that aren't there")
    return 1 if wrong else 0


if __name__ == "__main__":
    sys.exit(main())
