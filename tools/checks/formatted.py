"""Each crate's sources are as `rt fmt` writes them, and nothing is a link: the gate refuses both before it proves anything.

`rt fmt` runs over a copy, several crates at a time, so nothing in the tree changes. It needs the kit. Where there is none it is skipped,
and a line says so; by itself, this check then has the status 77."""

import argparse
import concurrent.futures
import filecmp
import os
import shutil
import subprocess
import tempfile
from typing import List

import crates
from needs import SKIPPED, line_of, missing, reason_of

# `rt fmt` names these lines of an edit, which aren't its own.
NOT_READ = "has a line that is not read"


def copied(top: str, room: str) -> List[str]:
    """Copies what `rt fmt` reads to an empty folder, and returns the crates that are there."""
    names = [it for it in crates.read(top) if os.path.isdir(f"{top}/crates/{it}")]
    shutil.copy(f"{top}/crates.txt", room)
    for name in names:
        shutil.copytree(f"{top}/crates/{name}", f"{room}/crates/{name}", ignore=lambda at, _, out=f"{top}/crates/{name}": ["out"] if at == out else [])
    return names


def sources(folder: str) -> List[str]:
    """The sources of a crate, by their paths in its folder."""
    found = [os.path.relpath(f"{at}/{it}", folder) for part in crates.PARTS for at, _, its in os.walk(f"{folder}/{part}") for it in its]
    return sorted(it for it in found if it.endswith((".rt", ".antt")))


def faults_of(top: str, room: str, name: str) -> List[str]:
    """Formats a crate of the copy, and returns which of its files aren't as in the tree, or why it can't be formatted."""
    tree, copy = f"{top}/crates/{name}", f"{room}/crates/{name}"
    ran = subprocess.run(["rt", "fmt"], cwd=copy, stdin=subprocess.DEVNULL, stdout=subprocess.PIPE, stderr=subprocess.STDOUT, text=True,
                         errors="replace", check=False)
    if ran.returncode:
        said = [it for it in ran.stdout.splitlines() if it.strip() and NOT_READ not in it]
        return [f"rt fmt fails in crates/{name}: {' '.join(said)[:400] or f'status {ran.returncode}'}"]
    return [f"crates/{name}/{it} isn't as rt fmt writes it: run rt fmt in crates/{name}" for it in sources(tree)
            if not filecmp.cmp(f"{tree}/{it}", f"{copy}/{it}", shallow=False)]


def links_of(top: str) -> List[str]:
    """The links in a repository, but for what git keeps and what builds left."""
    found = []
    for at, folders, files in os.walk(top):
        found += [os.path.relpath(f"{at}/{it}", top) for it in [*folders, *files] if os.path.islink(f"{at}/{it}")]
        folders[:] = sorted(it for it in folders if it not in {".git", "out"})
    return sorted(found)


def check(words: argparse.Namespace) -> int:
    links = [f"{it} is a link, and the gate takes none: put the file or folder itself there" for it in links_of(words.top)]
    for fault in links:
        print(fault)
    if missing("rt"):
        print(line_of("the layout of the crates", reason_of(["rt"])))
        if words.names == ["formatted"]:
            raise SystemExit(1 if links else SKIPPED)
        return len(links)
    with tempfile.TemporaryDirectory(prefix="jcrdt-formatted-") as room, concurrent.futures.ThreadPoolExecutor(len(os.sched_getaffinity(0))) as pool:
        names = copied(words.top, room)
        faults = [it for found in pool.map(lambda name: faults_of(words.top, room, name), names) for it in found]
    for fault in faults:
        print(fault)
    print(f"{len(names)} crates, {len(links) + len(faults)} faults")
    return len(links) + len(faults) if names else 1
