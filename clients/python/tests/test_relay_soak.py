"""Servers that are killed and cut off while relays keep them in agreement, for some seconds each."""

import shutil
import subprocess
import sys

import pytest

from conftest import PROGRAM, SECONDS, TOP


def soak(*words: str) -> None:
    command = [sys.executable, str(TOP / "tests" / "relay-soak"), PROGRAM, "--seconds", "8", "--servers", "3", "--seed=5", *words]
    run = subprocess.run(command, stdout=subprocess.PIPE, stderr=subprocess.STDOUT, timeout=3 * SECONDS)
    assert run.returncode == 0, run.stdout.decode()


def test_one_relay() -> None:
    soak()


def test_sites_that_meet_in_redis() -> None:
    pytest.importorskip("redis.asyncio", reason="python3-redis isn't installed")
    if not shutil.which("redis-server"):
        pytest.skip("redis-server isn't installed")
    soak("--redis", "--python", sys.executable)
