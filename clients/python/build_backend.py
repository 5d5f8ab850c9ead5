"""Builds the wheel of this package with the standard library alone, so that it needs no network and no other package.

`pip install` and `pip wheel` call it (PEP 517). setuptools they would fetch anew for each build, also where Debian's
is installed, unless they are told not to (`--no-build-isolation`): without a network `pip install .` would fail.

pyproject.toml has all that it says of the package. The same sources give the same bytes. On x86-64 and ARM64 Linux the
wheel has libjcrdt.so, by which `jcrdt.replica` works, and is for such machines alone; elsewhere, and where there is no
release, it is for all. A wheel for another platform than this one: `pip wheel . --config-settings
platform=linux-aarch64`.
"""

import ast
import base64
import configparser
import hashlib
import io
import os
import re
import sysconfig
import tarfile
import zipfile
from pathlib import Path
from typing import Any, Dict, Iterator, List, Optional, Tuple

HERE = Path(__file__).resolve().parent
# The earliest time that a zip file can have.
TIME = (1980, 1, 1, 0, 0, 0)
# The library of each platform that has one, in a checkout's release/ and in a source distribution's jcrdt/.
LIBRARIES = {"linux-x86_64": "libjcrdt.so", "linux-aarch64": "aarch64/libjcrdt.so"}
# A link to a page of the repository leads nowhere from an installed package: its text stays.
LINK_TO_PAGE = re.compile(r"\[([^\]]+)\]\((?![a-z]+:)[^)]+\)")


def project() -> Dict[str, Dict[str, Any]]:
    """The tables of pyproject.toml by their names, and their values by their keys."""
    parser = configparser.ConfigParser(delimiters=("=",), comment_prefixes=("#",), interpolation=None)
    parser.optionxform = str  # type: ignore[assignment]
    parser.read_string((HERE / "pyproject.toml").read_text(encoding="utf-8"))
    return {table: {key: _value(text) for key, text in parser[table].items()} for table in parser.sections()}


def _value(text: str) -> Any:
    return {"true": True, "false": False}[text] if text in ("true", "false") else ast.literal_eval(text)


TABLES = project()
PROJECT = TABLES["project"]
NAME, VERSION = PROJECT["name"], PROJECT["version"]
DIST_INFO = f"{NAME}-{VERSION}.dist-info"
EVERYWHERE = "py3-none-any"


def _heads() -> Iterator[Tuple[str, str]]:
    """The fields of the core metadata, by their names."""
    yield from (("Metadata-Version", "2.1"), ("Name", NAME), ("Version", VERSION), ("Summary", PROJECT["description"]),
                ("License", TABLES["project.license"]["text"]), ("Keywords", ",".join(PROJECT["keywords"])))
    yield from (("Classifier", it) for it in PROJECT["classifiers"])
    yield from (("Project-URL", f"{name}, {url}") for name, url in TABLES.get("project.urls", {}).items())
    yield "Requires-Python", PROJECT["requires-python"]
    yield from (("Requires-Dist", it) for it in PROJECT["dependencies"])
    for extra, needed in TABLES["project.optional-dependencies"].items():
        yield "Provides-Extra", extra
        yield from (("Requires-Dist", f'{it}; extra == "{extra}"') for it in needed)
    yield "Description-Content-Type", "text/markdown"


def _metadata() -> str:
    readme = (HERE / PROJECT["readme"]).read_text(encoding="utf-8")
    return "".join(f"{name}: {value}\n" for name, value in _heads()) + "\n" + LINK_TO_PAGE.sub(r"\1", readme)


def _sources() -> List[Tuple[str, bytes]]:
    """The files of the package, by name."""
    paths = sorted([*(HERE / NAME).rglob("*.py"), HERE / NAME / "py.typed"])
    return [(path.relative_to(HERE).as_posix(), path.read_bytes()) for path in paths]


def _library(platform: str) -> Optional[bytes]:
    """The library of a platform, if it is here."""
    path = LIBRARIES.get(platform, "none")
    places = (HERE.parent.parent / "release" / path, HERE / NAME / path)
    return next((it.read_bytes() for it in places if it.is_file()), None)


def _dist_info(tag: str) -> List[Tuple[str, bytes]]:
    scripts = "".join(f"{name} = {target}\n" for name, target in TABLES["project.scripts"].items())
    wheel = f"Wheel-Version: 1.0\nGenerator: jcrdt\nRoot-Is-Purelib: {str(tag == EVERYWHERE).lower()}\nTag: {tag}\n"
    texts = {"METADATA": _metadata(), "WHEEL": wheel, "entry_points.txt": "[console_scripts]\n" + scripts}
    return [(f"{DIST_INFO}/{name}", text.encode()) for name, text in texts.items()]


def build_wheel(wheel_directory: str, config_settings: Optional[Dict[str, Any]] = None,
                metadata_directory: Optional[str] = None) -> str:
    platform = (config_settings or {}).get("platform", sysconfig.get_platform())
    found = _library(platform)
    library = [] if found is None else [(f"{NAME}/libjcrdt.so", found)]
    tag = f"py3-none-{platform.replace('-', '_')}" if library else EVERYWHERE
    name, files, record = f"{NAME}-{VERSION}-{tag}.whl", _sources() + library + _dist_info(tag), ""
    for path, content in files:
        digest = base64.urlsafe_b64encode(hashlib.sha256(content).digest()).rstrip(b"=").decode()
        record += f"{path},sha256={digest},{len(content)}\n"
    files.append((f"{DIST_INFO}/RECORD", f"{record}{DIST_INFO}/RECORD,,\n".encode()))
    with zipfile.ZipFile(os.path.join(wheel_directory, name), "w", zipfile.ZIP_DEFLATED) as wheel:
        for path, content in files:
            entry = zipfile.ZipInfo(path, TIME)
            entry.external_attr = 0o644 << 16
            entry.compress_type = zipfile.ZIP_DEFLATED
            wheel.writestr(entry, content)
    return name


def build_sdist(sdist_directory: str, config_settings: Optional[Dict[str, Any]] = None) -> str:
    name = f"{NAME}-{VERSION}"
    kept = [(path, (HERE / path).read_bytes()) for path in ("pyproject.toml", "README.md", "build_backend.py")]
    libraries = [(f"{NAME}/{path}", found) for platform, path in LIBRARIES.items() if (found := _library(platform))]
    with tarfile.open(os.path.join(sdist_directory, f"{name}.tar.gz"), "w:gz") as archive:
        for path, content in [("PKG-INFO", _metadata().encode()), *kept, *_sources(), *libraries]:
            entry = tarfile.TarInfo(f"{name}/{path}")
            entry.size, entry.mode = len(content), 0o644
            archive.addfile(entry, io.BytesIO(content))
    return f"{name}.tar.gz"
