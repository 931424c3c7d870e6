#!/usr/bin/env python3
"""Makes the archive twice, compares the bytes, and runs what it holds in an empty root.

    tests/dist.py            of the program that `make` leaves

The root has the archive's files and the libraries that the program names, and nothing else: a record is put and shown there, and each file has the checksum that the archive tells.
The version of the program is that of the archive's name and of its README.
The root is looked at where the caller may change it (chroot), the unit by systemd-analyze and the manual page by man where they are there.
"""

import hashlib
import importlib.util
import json
import os
import re
import shutil
import subprocess
import sys
import tarfile
import tempfile
from pathlib import Path

from looks import ROOT, end, look


def module(path):
    spec = importlib.util.spec_from_file_location(path.stem, path)
    loaded = importlib.util.module_from_spec(spec)
    spec.loader.exec_module(loaded)
    return loaded


def libraries(program):
    """The files of the machine that a program is linked with."""
    told = subprocess.run(["ldd", program], capture_output=True, text=True).stdout
    return re.findall(r"(/\S+) \(0x", told)


def run_in(root, words, lines=""):
    return subprocess.run(words, input=lines, capture_output=True, text=True, preexec_fn=lambda: (os.chroot(root), os.chdir("/")))


def look_at_root(root, unpacked):
    for library in libraries(unpacked / "bin" / "formd"):
        (root / library[1:]).parent.mkdir(parents=True, exist_ok=True)
        shutil.copy(library, root / library[1:])
    (root / "order.json").write_bytes((ROOT / "examples" / "order.json").read_bytes())
    formd = "/" + str((unpacked / "bin" / "formd").relative_to(root))
    look("declarations in an empty root", run_in(root, [formd, "declarations", "order.json"]).stdout, "ok\n")
    item = {"types": {"T": {"fields": {"f": {"type": "text", "constraints": [{"constraint": "NotNull"}]}}}}, "forms": {"g": {"root": "T"}}}
    (root / "item.json").write_text(json.dumps(item))
    put = '{"do":"put","id":"r1","form":"g","bundle":{"root":"v","objects":{"v":{"type":"T","fields":{"f":"a"}}}}}\n'
    serve = [formd, "serve", "--declarations", "item.json", "--database", "r.db"]
    look("a put in an empty root", run_in(root, serve, put).stdout, '{"ok":"put"}\n')
    shown = '{"bundle":{"objects":{"v":{"fields":{"f":"a"},"type":"T"}},"root":"v"},"form":"g","id":"r1","ok":"get"}\n'
    look("a get in an empty root", run_in(root, serve, '{"do":"get","id":"r1"}\n').stdout, shown)


def look_at_checksums(unpacked):
    lines = (unpacked / "SHA256SUMS").read_text().splitlines()
    told = {path: digest for digest, path in (line.split("  ", 1) for line in lines)}
    there = {str(file.relative_to(unpacked)): hashlib.sha256(file.read_bytes()).hexdigest() for file in unpacked.rglob("*") if file.is_file() and file.name != "SHA256SUMS"}
    look("checksums", told, there)


def look_at_version(name, unpacked):
    told = subprocess.run([unpacked / "bin" / "formd", "version"], capture_output=True, text=True).stdout
    version = told.removeprefix("formd ").partition(",")[0]
    look("the version in the archive's name", name, f"gavelumbrine-{version}-linux-x86_64.tar.gz")
    look("the version in the README", re.findall(r"\*\*Version\*\* (\S+)", (unpacked / "share/gavelumbrine/README.md").read_text()), [version])


def look_at_texts(unpacked):
    if shutil.which("man"):
        page = subprocess.run(["man", "-l", "--warnings", unpacked / "share/man/man1/formd.1"], capture_output=True, text=True, env={**os.environ, "MANWIDTH": "200"})
        look("warnings of the manual page", page.stderr, "")
        look("the manual page has each word", [word for word in ("serve", "judge", "declarations", "explain", "rehearse", "export", "version") if word not in page.stdout], [])
    if shutil.which("systemd-analyze"):
        unit = subprocess.run(["systemd-analyze", "verify", "--man=no", unpacked / "lib/systemd/system/orders.service"], capture_output=True, text=True)
        wrong = [line for line in unit.stderr.splitlines() if "orders.service" in line and "is not executable" not in line]
        look("what is wrong with the unit", wrong, [])


def look_at_links(folder):
    """Those of the documents, and whether what the unit's program reads is there."""
    link = module(ROOT / "tests" / "links.py").LINK
    there = [(document, path) for document in sorted(folder.rglob("*.md")) for path in link.findall(document.read_text()) if "://" not in path]
    look("links that lead nowhere", [(document.name, path) for document, path in there if not (document.parent / path).exists()], [])
    needed = "docs/declarations.schema.json", "examples/flask/app.py", "examples/contact.json", "clients/python/formd_client.py"
    look("files that aren't there", [name for name in needed if not (folder / name).exists()], [])


def main():
    archive = module(ROOT / "dist" / "archive.py")
    with tempfile.TemporaryDirectory() as folder:
        folder = Path(folder)
        (folder / "one").mkdir(), (folder / "two").mkdir(), (folder / "root").mkdir()
        one, two = archive.archive(folder / "one"), archive.archive(folder / "two")
        look("the archive made twice", hashlib.sha256(two.read_bytes()).hexdigest(), hashlib.sha256(one.read_bytes()).hexdigest())
        with tarfile.open(one) as tar:
            tar.extractall(folder / "root", **({"filter": "data"} if hasattr(tarfile, "data_filter") else {}))
        unpacked = folder / "root" / one.name.removesuffix(".tar.gz")
        look_at_checksums(unpacked)
        look_at_version(one.name, unpacked)
        look_at_texts(unpacked)
        look_at_links(unpacked / "share" / "gavelumbrine")
        if os.geteuid() == 0:
            look_at_root(folder / "root", unpacked)
        print(f"{one.name}: {one.stat().st_size:,} bytes, {len(list(unpacked.rglob('*')))} files and folders")
    return end()


if __name__ == "__main__":
    sys.exit(main())
