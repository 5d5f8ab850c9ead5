"""Which Python has what a tool or a test needs."""

import shutil
import subprocess
from typing import Optional


def python_with(*modules: str) -> Optional[str]:
    """A Python that has these modules, or nothing."""
    for name in ("python3", "/usr/bin/python3"):
        found = shutil.which(name)
        if found and subprocess.run([found, "-c", f"import {', '.join(modules)}"], stderr=subprocess.DEVNULL, check=False).returncode == 0:
            return found
    return None
