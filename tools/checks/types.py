"""Lint, types and shell: pyflakes and mypy --strict of all Python, tsc, shellcheck.

The runs of mypy go one after the other and share a cache, which is made anew: what several import is read once. tsc also makes
clients/js/types, which must be what is there.

What needs a tool that isn't here is skipped, which a line says. By itself, this check has the status 77 where it could try nothing."""

import argparse
import concurrent.futures
import filecmp
import glob
import os
import re
import shutil
import subprocess
import tempfile
from typing import Callable, Dict, Iterator, List, NamedTuple, Optional, Sequence, Tuple

from needs import SKIPPED, line_of, missing, reason_of
from pythons import python_with

# Where mypy finds the modules of a folder at the top, and those of all other Python. First is the folder whose modules others import.
MODULES = {"clients": "clients/python:clients/python/tests", "examples": "examples/tests:examples:clients/python"}
OTHER_MODULES = "tools:tests:tests/whole-program:operations/tests:clients/python:bench"


class Tool(NamedTuple):
    """A tool's run: its name, the command or nothing where it isn't here, its folder and its further words."""

    name: str
    command: Optional[str]
    folder: str
    words: List[str]
    needed: List[str]  # by their names in tests/packages.txt
    modules: str = ""  # where mypy finds modules
    made: Tuple[str, str] = ("", "")  # a folder that it fills, and the one in the repository that must be the same


def tracked(top: str, *patterns: str) -> List[str]:
    """The files of the repository that match, also new ones."""
    found = subprocess.run(["git", "-C", top, "ls-files", "--cached", "--others", "--exclude-standard", "--", *patterns], stdout=subprocess.PIPE,
                           text=True, check=False).stdout.split()
    return sorted(it for it in set(found) if os.path.isfile(f"{top}/{it}"))


def begins(top: str, name: str, *heads: bytes) -> bool:
    with open(f"{top}/{name}", "rb") as it:
        return it.readline(64).startswith(heads)


def python_files(top: str) -> List[str]:
    """The files that Python runs: by their names, or their first lines."""
    return [it for it in tracked(top) if it.endswith(".py") or "." not in os.path.basename(it) and begins(top, it, b"#!/usr/bin/env python3")]


def shell_files(top: str) -> List[str]:
    """The files that a shell runs: by their names and first lines."""
    names = tracked(top, "*.sh", ".ci/*", "tools/*", "tests/*", "examples/*", "operations/*", "packaging/*", "debian/*", "jcrdt")
    return [it for it in names if begins(top, it, b"#!/usr/bin/env bash", b"#!/bin/bash", b"#!/bin/sh", b"#!/usr/bin/env sh")]


def without_twins(files: List[str]) -> List[List[str]]:
    """The files in as few lists as have no two of one name: mypy takes a file for the module of its name."""
    found: List[Dict[str, str]] = []
    for file in files:
        name = os.path.splitext(os.path.basename(file))[0]
        if all(name in it for it in found):
            found.append({})
        next(it for it in found if name not in it)[name] = file
    return [list(it.values()) for it in found]


def typed(top: str, files: List[str], cache: str) -> Iterator[Tool]:
    """The runs of mypy. Tests import pytest, whose types it needs."""
    command = python_with("mypy", "pytest")
    words = ["-m", "mypy", "--strict", "--no-error-summary", f"--cache-dir={cache}", "--explicit-package-bases", "--namespace-packages",
             "--scripts-are-modules"]
    for folder in (*MODULES, ""):
        inside = [it for it in files if it.partition("/")[0] == folder or not folder and it.partition("/")[0] not in MODULES]
        for number, part in enumerate(without_twins(inside), 1):
            name = f"mypy of {folder or 'tools and tests'}{f', part {number}' if number > 1 else ''}"
            yield Tool(name, command, top, [*words, *part], ["python:mypy", "python:pytest"], MODULES.get(folder, OTHER_MODULES))


def others(top: str, files: List[str], room: str) -> Iterator[Tool]:
    """The runs of other tools."""
    yield Tool("pyflakes", python_with("pyflakes"), top, ["-m", "pyflakes", *files], ["python:pyflakes"])
    tsc = shutil.which("tsc")
    for package in ("js", "hub"):
        inside = f"{top}/clients/{package}"
        if glob.glob(f"{inside}/tsconfig.json"):
            made = (f"{room}/{package}", f"{inside}/types") if os.path.isdir(f"{inside}/types") else ("", "")
            words = ["--noEmit", "false", "--declaration", "--emitDeclarationOnly", "--outDir", made[0]] if made[0] else []
            yield Tool(f"tsc of clients/{package}", tsc, inside, ["-p", ".", *words], ["tsc"], made=made)
    yield Tool("shellcheck", shutil.which("shellcheck"), top, ["-x", *shell_files(top)], ["shellcheck"])


def is_excused(folder: str, fault: str) -> bool:
    """Whether a fault's line, or the one that it names, says `noqa`: a test names what pytest hands it."""
    found = re.match(r"([^:]+):(\d+):.*?(?: from line (\d+))?$", fault)
    if not found:
        return False
    with open(f"{folder}/{found[1]}", encoding="utf-8") as it:
        lines = it.read().split("\n")
    return any("noqa" in lines[int(number) - 1] for number in (found[2], found[3]) if number)


def unlike(made: str, kept: str) -> Iterator[str]:
    """A line for each file that is in one of two folders alone, or differs."""
    _, differing, alone = filecmp.cmpfiles(made, kept, {*os.listdir(made), *os.listdir(kept)}, shallow=False)
    yield from (f"types/{it} isn't what tsc makes of the comments: npm run types\n" for it in sorted([*differing, *alone]))


def outcome(tool: Tool) -> Optional[str]:
    """What a tool found, or nothing where it isn't here."""
    if not tool.command:
        return None
    ran = subprocess.run([tool.command, *tool.words], cwd=tool.folder, stdin=subprocess.DEVNULL, stdout=subprocess.PIPE, stderr=subprocess.STDOUT,
                         env={**os.environ, "MYPYPATH": tool.modules}, text=True, check=False)
    if not ran.returncode:
        return "".join(unlike(*tool.made)) if tool.made[0] else ""
    if tool.name == "pyflakes":
        return "".join(f"{it}\n" for it in ran.stdout.splitlines() if not is_excused(tool.folder, it))
    return ran.stdout or f"status {ran.returncode}\n"


def outcomes(tools: Sequence[Tool]) -> List[Optional[str]]:
    """What each of these tools found, one after the other."""
    return [outcome(it) for it in tools]


def check(words: argparse.Namespace) -> int:
    files = python_files(words.top)
    with tempfile.TemporaryDirectory(prefix="jcrdt-types-") as room, concurrent.futures.ThreadPoolExecutor(2) as pool:
        lanes = [list(typed(words.top, files, f"{room}/mypy")), list(others(words.top, files, room))]
        tools = [it for lane in lanes for it in lane]
        said = dict(zip([it.name for it in tools], (text for found in pool.map(outcomes, lanes) for text in found)))
    for name, text in said.items():
        print(f"{name}:\n{text}" if text else "", end="")
    for tool in tools:
        if said[tool.name] is None:
            print(line_of(tool.name, reason_of(missing(*tool.needed))))
    which: Callable[[Callable[[Optional[str]], bool]], str] = lambda test: ", ".join(name for name, text in said.items() if test(text))
    bad = which(bool)
    print(f"well: {which(lambda it: it == '') or 'none'}{'; faults: ' + bad if bad else ''}")
    if words.names == ["types"] and all(it is None for it in said.values()):
        raise SystemExit(SKIPPED)
    return sum(bool(it) for it in said.values())
