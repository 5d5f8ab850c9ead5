"""The package: its version, its wheel in an empty folder, its types, and the oldest Python that is here."""

import email.message
import email.parser
import glob
import json
import os
import re
import shutil
import subprocess
import sys
import sysconfig
import zipfile
from pathlib import Path
from typing import Callable, List

import pytest
from conftest import PACKAGE, PROGRAM, SECONDS, TOP, Server, takes_long

import jcrdt

Serve = Callable[..., Server]

SMOKE = """
import sys
import jcrdt
from jcrdt import log, stop
with jcrdt.started(["d"], "alice") as session:
    session.open("d")
    session.put("d", [0], {"list": [{"a": 1}, "x"], "votes": jcrdt.Counter(2**70)})
    assert session.plain("d", [0]) == {"list": [{"a": 1}, "x"], "votes": {"counter": 2**70}}
print(jcrdt.__file__)
"""


def test_one_version() -> None:
    version = (TOP / "VERSION").read_text().strip()
    assert jcrdt.__version__ == version
    assert re.findall(r'(?m)^version = "(.*)"$', (PACKAGE / "pyproject.toml").read_text()) == [version]


@pytest.mark.parametrize("page, shown", [
    (TOP / "docs" / "GUIDE.md", "{'steps': ['ask'], 'title': 'Plan'}"),
    (PACKAGE / "README.md", "{'days': [{'town': 'Oslo'}, {'town': 'Bergen'}], 'title': 'Oslo'}")])
def test_the_first_program_of_a_page(page: Path, shown: str, serve: Serve) -> None:
    """It runs as it is written, before a server with the documents that it names."""
    server = serve("notes", "trip")
    blocks = page.read_text().split("```python\n")[1:]
    program = blocks[0].split("```")[0].replace("127.0.0.1:7001", server.address)
    run = subprocess.run([sys.executable, "-c", program], stdout=subprocess.PIPE, stderr=subprocess.STDOUT, timeout=SECONDS,
                         env={**os.environ, "PYTHONPATH": str(PACKAGE)})
    assert run.stdout.decode().strip() == shown


def copied(folder: Path) -> Path:
    """A copy of what is under version control, and of what a build needs: a build leaves nothing here."""
    shutil.copytree(PACKAGE, folder / "source", ignore=shutil.ignore_patterns("__pycache__", ".*_cache", "tests", "build", "*.egg-info"))
    return folder / "source"


def test_the_wheel_in_an_empty_folder(tmp_path: Path) -> None:
    """Built and installed without a network, it runs against `jcrdt` in PATH and by the variable JCRDT."""
    if subprocess.run([sys.executable, "-c", "import pip"], stderr=subprocess.DEVNULL).returncode:
        pytest.skip("pip isn't installed")
    pip = [sys.executable, "-m", "pip", "--disable-pip-version-check", "-q"]
    environment = {**os.environ, "PIP_NO_INDEX": "1"}
    subprocess.run([*pip, "wheel", "-w", str(tmp_path), str(copied(tmp_path))], check=True,
                   env=environment, timeout=SECONDS, cwd=tmp_path)
    [wheel] = tmp_path.glob("*.whl")
    listed = subprocess.run(["unzip", "-Z1", str(wheel)] if shutil.which("unzip") else
                            [sys.executable, "-m", "zipfile", "-l", str(wheel)], stdout=subprocess.PIPE, check=True).stdout.decode()
    assert "jcrdt/py.typed" in listed and "cache" not in listed and "tests" not in listed
    subprocess.run([*pip, "install", "--target", str(tmp_path / "site"), str(wheel)], check=True, env=environment,
                   timeout=SECONDS, cwd=tmp_path)
    (tmp_path / "bin").mkdir()
    (tmp_path / "empty").mkdir()
    (tmp_path / "bin" / "jcrdt").symlink_to(PROGRAM)
    for more in ({"PATH": f"{tmp_path}/bin:{os.environ['PATH']}"}, {"JCRDT": PROGRAM}):
        clean = {name: value for name, value in os.environ.items() if name not in ("JCRDT", "PYTHONPATH")}
        run = subprocess.run([sys.executable, "-c", SMOKE], env={**clean, **more, "PYTHONPATH": str(tmp_path / "site")},
                             stdout=subprocess.PIPE, check=True, cwd=tmp_path / "empty", timeout=SECONDS)
        assert run.stdout.decode().startswith(str(tmp_path / "site"))
        told = subprocess.run([sys.executable, "-m", "jcrdt", "--help"], env={**clean, **more, "PYTHONPATH": str(tmp_path / "site")},
                              stdout=subprocess.PIPE, check=True, cwd=tmp_path / "empty", timeout=SECONDS).stdout
        assert b"python3 -m jcrdt TOOL" in told


def heads(content: bytes) -> email.message.Message:
    return email.parser.BytesParser().parsebytes(content)


def spelt(message: email.message.Message, field: str) -> List[str]:
    """The values of a field. `redis (>=4.3)` and `redis>=4.3` are one."""
    return sorted(re.sub(r"[ ()]", "", it).replace("'", '"') for it in message.get_all(field, []))


def test_the_wheel_says_what_it_is(tmp_path: Path) -> None:
    """Its fields are those that setuptools writes for the same pyproject.toml. A page that it doesn't have isn't linked."""
    build = "import sys; from {0} import {1}; print({1}(sys.argv[1]))"
    source = copied(tmp_path)

    def ran(module: str, call: str) -> str:
        words = [sys.executable, "-B", "-c", build.format(module, call), str(tmp_path)]
        run = subprocess.run(words, cwd=source, stdout=subprocess.PIPE, stderr=subprocess.DEVNULL, check=True, timeout=SECONDS)
        return run.stdout.decode().split("\n")[-2]

    with zipfile.ZipFile(tmp_path / ran("build_backend", "build_wheel")) as wheel:
        [name] = [it for it in wheel.namelist() if it.endswith("/METADATA")]
        ours = heads(wheel.read(name))
    assert re.findall(r"\]\((?!https?://)", str(ours.get_payload())) == []
    assert {"Typing :: Typed", "Operating System :: POSIX :: Linux"} <= set(ours.get_all("Classifier", []))
    if subprocess.run([sys.executable, "-c", "import setuptools, wheel"], stderr=subprocess.DEVNULL).returncode:
        pytest.skip("setuptools isn't installed: its fields weren't compared")
    folder = ran("setuptools.build_meta", "prepare_metadata_for_build_wheel")
    theirs = heads((tmp_path / folder / "METADATA").read_bytes())
    for field in set(theirs) - {"Metadata-Version"}:
        assert spelt(ours, field) == spelt(theirs, field), field


OFFLINE = """
from jcrdt.replica import Replica, library_paths
import os
with Replica("ada-1") as me:
    me.put([0, "days"], [{"at": "Oslo"}])
    lines = me.logged()
with Replica("ada-1", lines) as again:
    assert again.plain() == {"days": [{"at": "Oslo"}]}
print(next(filter(os.path.isfile, library_paths())))
"""


def test_the_wheel_has_the_library(tmp_path: Path) -> None:
    """Built in a checkout, and from the source distribution of one: installed, it opens a replica without a checkout and a server."""
    library = TOP / "release" / "libjcrdt.so"
    if sysconfig.get_platform() != "linux-x86_64" or not library.is_file():
        pytest.skip("libjcrdt.so isn't here")
    (tmp_path / "release").mkdir()
    shutil.copy(library, tmp_path / "release")
    source = tmp_path / "clients" / "python"
    shutil.copytree(copied(tmp_path), source)
    build = "import build_backend, sys; print(getattr(build_backend, sys.argv[1])(sys.argv[2]))"

    def built(what: str, folder: Path) -> str:
        run = subprocess.run([sys.executable, "-B", "-c", build, what, str(tmp_path)], cwd=folder, stdout=subprocess.PIPE, check=True, timeout=SECONDS)
        return run.stdout.decode().strip()

    archive, wheel = built("build_sdist", source), built("build_wheel", source)
    assert wheel.endswith("-py3-none-linux_x86_64.whl")
    content = (tmp_path / wheel).read_bytes()
    shutil.unpack_archive(str(tmp_path / archive), str(tmp_path / "unpacked"))
    assert built("build_wheel", tmp_path / "unpacked" / archive[:-len(".tar.gz")]) == wheel
    assert (tmp_path / wheel).read_bytes() == content
    shutil.unpack_archive(str(tmp_path / wheel), str(tmp_path / "site"), "zip")
    clean = {name: value for name, value in os.environ.items() if name not in ("JCRDT_LIBRARY", "PYTHONPATH")}
    run = subprocess.run([sys.executable, "-c", OFFLINE], env={**clean, "PYTHONPATH": str(tmp_path / "site")}, cwd=tmp_path,
                         stdout=subprocess.PIPE, check=True, timeout=SECONDS)
    assert run.stdout.decode().strip() == str(tmp_path / "site" / "jcrdt" / "libjcrdt.so")


@pytest.mark.parametrize("platform, path, machine", [("linux-x86_64", "libjcrdt.so", 62), ("linux-aarch64", "aarch64/libjcrdt.so", 183)])
def test_a_wheel_for_each_platform(tmp_path: Path, platform: str, path: str, machine: int) -> None:
    """Built anywhere, it has the library of that platform, by ELF's number of its machine, and says so by its tag. So has one of a source
    distribution. For any other platform it has none."""
    if not (TOP / "release" / path).is_file():
        pytest.skip("libjcrdt.so isn't here")
    shutil.copytree(TOP / "release" / os.path.dirname(path), tmp_path / "release" / os.path.dirname(path))
    source = tmp_path / "clients" / "python"
    shutil.copytree(copied(tmp_path), source)
    program = ("import build_backend as it, sys; at, platform = sys.argv[1:]\n"
               "print(it.build_sdist(at), it.build_wheel(at, {'platform': platform}), it.build_wheel(at, {'platform': 'linux-riscv64'}))")

    def built(folder: Path) -> List[str]:
        run = subprocess.run([sys.executable, "-B", "-c", program, str(tmp_path), platform], cwd=folder, stdout=subprocess.PIPE, check=True,
                             timeout=SECONDS)
        return run.stdout.decode().split()

    archive, wheel, other = built(source)
    assert wheel.endswith(f"-py3-none-{platform.replace('-', '_')}.whl") and other.endswith("-py3-none-any.whl")
    content = (tmp_path / wheel).read_bytes()
    with zipfile.ZipFile(tmp_path / wheel) as opened:
        assert int.from_bytes(opened.read("jcrdt/libjcrdt.so")[18:20], "little") == machine
    with zipfile.ZipFile(tmp_path / other) as opened:
        assert not any(it.endswith(".so") for it in opened.namelist())
    shutil.unpack_archive(str(tmp_path / archive), str(tmp_path / "unpacked"))
    assert built(tmp_path / "unpacked" / archive[:-len(".tar.gz")])[1] == wheel
    assert (tmp_path / wheel).read_bytes() == content


def other_pythons() -> List[str]:
    """Other Pythons from 3.8 on, the oldest first."""
    found = []
    for path in glob.glob(os.path.expanduser("~/.pyenv/versions/3.*/bin/python3")) + glob.glob("/usr/bin/python3.*[0-9]"):
        version = re.search(r"3\.(\d+)", path)
        if version and int(version[1]) >= 8:
            found.append((int(version[1]), path))
    return [path for _, path in sorted(found)]


@takes_long
def test_the_oldest_python(serve: Serve, tmp_path: Path) -> None:
    """A session, the log of a served file, and a stop while a client is connected."""
    pythons = other_pythons()
    if not pythons:
        pytest.skip("no other Python is here")
    clean = {**os.environ, "PYTHONPATH": str(PACKAGE), "PYTHONDONTWRITEBYTECODE": "1"}
    for python in {pythons[0], pythons[-1]}:
        subprocess.run([python, "-c", SMOKE], env=clean, stdout=subprocess.DEVNULL, check=True, timeout=SECONDS)
        server = serve("d", name=f"s{len(python)}-{pythons.index(python)}", sessions=4)
        with jcrdt.connected(server.address) as session:
            session.open("d")
            session.assign("d", [0, "k"], 1)
            words = [python, "-m", "jcrdt", "log", server.file, "--front"]
            told = subprocess.run(words, env=clean, stdout=subprocess.PIPE, check=True, timeout=SECONDS).stdout
            assert not told.strip() or json.loads(told)[1] == "d"
            with subprocess.Popen([python, "-m", "jcrdt", "stop", server.address, "--file", server.file], env=clean,
                                  stdout=subprocess.PIPE, stderr=subprocess.STDOUT) as stop:
                assert stop.stdout is not None
                assert stop.stdout.readline().startswith(b"no session is left")
                session.quit()
                rest = stop.communicate(timeout=SECONDS)[0].decode()
                assert stop.returncode == 0 and "the server has ended" in rest, rest
        assert server.end() == '["total","d",1,1,1]\n'
