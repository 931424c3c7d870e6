#!/usr/bin/env python3
"""Puts the program that `make` leaves into one archive, with a manual page, a unit for systemd, the documents, the clients, the examples and checksums.

    dist/archive.py [FOLDER]    leaves gavelumbrine-VERSION-linux-x86_64.tar.gz in the folder, or in the current one

The same files give the same bytes: names in order, no owner, the time of the last commit. Documents lie to one another as in the repository; a link to a file that isn't taken along becomes plain text. The version is the program's own (`formd version`), the manual page is made of
the program's own help.
"""

import gzip
import hashlib
import io
import re
import subprocess
import sys
import tarfile
from pathlib import Path

ROOT = Path(__file__).resolve().parent.parent
FORMD = ROOT / "crates" / "formd" / "out" / "formd"
LINK = re.compile(r"\[([^\]]*)\]\(([^)\s]+)\)")
TAKEN = ("README.md", "CONTRIBUTING.md", "bench/README.md", "docs", "clients", "examples")


def said(*words):
    """What the program writes for some words; help goes to its standard error."""
    ran = subprocess.run([FORMD, *words], capture_output=True, text=True, stdin=subprocess.DEVNULL)
    return ran.stdout + ran.stderr


def version():
    found = re.fullmatch(r"formd (\d+\.\d+\.\d+), files of version \d+, \S+\n", said("version"))
    if not found:
        raise SystemExit("the program tells no version")
    return found[1]


def commit_time():
    """The seconds of the last commit; 0 outside of a repository."""
    ran = subprocess.run(["git", "log", "-1", "--format=%ct"], cwd=ROOT, capture_output=True, text=True)
    return int(ran.stdout) if ran.returncode == 0 and ran.stdout.strip() else 0


def roff(text):
    """A text as lines of roff that are shown as they stand."""
    return "".join("\\&" + line.replace("\\", "\\e").replace("-", "\\-") + "\n" for line in text.splitlines())


def manual_page():
    """The page formd(1), from the help of the program and of each of its words."""
    whole = said("--help")
    words = re.findall(r"^  (\w+) ", whole.split("Commands:\n")[1].split("\n\n")[0], re.M)
    parts = [(word, said(word, "--help")) for word in words if word != "help"]
    about, _, rest = whole.partition("\n")
    page = f'.TH FORMD 1 "" "Gavelumbrine {version()}"\n.SH NAME\nformd \\- {roff(about)[2:]}.SH SYNOPSIS\n.nf\n{roff(rest.strip())}.fi\n'
    for word, help_text in parts:
        page += f".SH {word.upper()}\n.nf\n{roff(help_text.strip())}.fi\n"
    page += ".SH EXIT STATUS\n"
    for status, meaning in (
        ("0", "done; of serve, judge and rehearse: the end of the input"),
        ("2", "the words weren't understood, or call for help"),
        ("3", "the declarations are refused; standard error names the fault"),
        ("4", "any other failure: a file, a database, a stream, want of memory"),
    ):
        page += f".TP\n.B {status}\n{meaning}\n"
    return page.encode()


def unlinked(path, taken):
    """A document, where links to what isn't taken along are plain text."""

    def kept(link):
        text, to = link.groups()
        there = (path.parent / to.partition("#")[0]).resolve() if not to.startswith("#") else path
        return link[0] if "://" in to or there in taken else text

    return LINK.sub(kept, path.read_text()).encode()


def files():
    """Each file of the archive: its path below the archive's folder, its bytes, and whether it is a program."""
    yield "bin/formd", FORMD.read_bytes(), True
    yield "share/man/man1/formd.1", manual_page(), False
    yield "lib/systemd/system/orders.service", (ROOT / "dist" / "orders.service").read_bytes(), False
    listed = subprocess.run(["git", "ls-files", "-z", *TAKEN], cwd=ROOT, capture_output=True, text=True, check=True).stdout
    taken = {ROOT / name for name in filter(None, listed.split("\0"))}
    for path in taken:
        data = unlinked(path, taken) if path.suffix == ".md" else path.read_bytes()
        yield f"share/gavelumbrine/{path.relative_to(ROOT)}", data, path.stat().st_mode & 0o100 != 0


def archive(folder):
    """Writes the archive into a folder, and gives its path."""
    name = f"gavelumbrine-{version()}-linux-x86_64"
    found = sorted(files())
    found.append(("SHA256SUMS", "".join(f"{hashlib.sha256(data).hexdigest()}  {path}\n" for path, data, _ in found).encode(), False))
    when, packed = commit_time(), io.BytesIO()
    with tarfile.open(fileobj=packed, mode="w", format=tarfile.USTAR_FORMAT) as tar:
        for path, data, is_program in found:
            entry = tarfile.TarInfo(f"{name}/{path}")
            entry.size, entry.mtime, entry.mode = len(data), when, 0o755 if is_program else 0o644
            tar.addfile(entry, io.BytesIO(data))
    written = Path(folder) / f"{name}.tar.gz"
    with open(written, "wb") as file, gzip.GzipFile("", "wb", 9, file, mtime=0) as zipped:
        zipped.write(packed.getvalue())
    return written


def main():
    if not FORMD.is_file():
        raise SystemExit(f"{FORMD} isn't there: make it by `make`")
    written = archive(sys.argv[1] if len(sys.argv) > 1 else ".")
    print(f"{hashlib.sha256(written.read_bytes()).hexdigest()}  {written}")


if __name__ == "__main__":
    main()
