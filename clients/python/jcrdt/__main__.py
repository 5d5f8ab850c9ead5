"""Tools for a server of shared JSON documents.

usage: python3 -m jcrdt TOOL ..     (with --help: what the tool does)

talk ADDRESS                        a terminal for a server
exchange ADDRESS ADDRESS DOC        two servers deliver to each other what the other lacks
relay ADDRESS.. --doc DOC           keeps servers in agreement for as long as it runs
save ADDRESS DOC FILE               a document as lines, one operation each
load ADDRESS DOC FILE               such lines into a server of another name
export ADDRESS DOC FILE             what a document shows, as JSON with its counters and conflicts
load-json ADDRESS DOC FILE          such JSON into a document, by what differs
log FILE                            what a stored log has; how full it is; what is on disk
renew count|put|since ..            a document that fills up into a new one
mend FILE --name NEW --to ADDRESS   two servers had one name: what a file has, made again at the other server
stop --file F                       stops the server of a file so that the file has everything

ADDRESS is HOST:PORT of a running server or a hub. The status is 0 if all went well, 1 if not, 2 for a wrong
command line; `log --status` and `renew count` have their own.
"""

import importlib
import os
import sqlite3
import sys
from typing import List

from .terminal import say_error
from .wire import Refused

TOOLS = ("talk", "exchange", "relay", "save", "load", "export", "load-json", "log", "renew", "mend", "stop")
# Where two tools are one module.
MODULES = {"save": "save_load", "load": "save_load", "export": "json_file", "load-json": "json_file"}


def run(words: List[str]) -> int:
    """Runs a tool, and returns its exit status."""
    if not words or words[0] not in TOOLS:
        usage = __doc__ or ""
        if words and words[0] in ("help", "--help", "-h"):
            print(usage)
            return 0
        print(usage, file=sys.stderr)
        return 2
    if words[0] == "relay":
        from .relay import main as relay
        relay(words[1:])
    tool = importlib.import_module(f".{MODULES.get(words[0], words[0])}", __package__)
    return int(tool.main(words if words[0] in MODULES else words[1:]))


def main() -> int:
    try:
        code = run(sys.argv[1:])
        sys.stdout.flush()
        return code
    except KeyboardInterrupt:
        return 130
    except BrokenPipeError:
        # Who reads the output has enough, as `head` does.
        os.dup2(os.open(os.devnull, os.O_WRONLY), sys.stdout.fileno())
        return 0
    except (OSError, ValueError, Refused, sqlite3.Error) as error:
        say_error(f"{sys.argv[1]}: {error}")
        leave_output()
        return 1


def leave_output() -> None:
    """Writes what is left for standard output, or drops it where that fails: Python would try once more at the end, and change the status."""
    try:
        sys.stdout.flush()
    except OSError:
        os.dup2(os.open(os.devnull, os.O_WRONLY), sys.stdout.fileno())


if __name__ == "__main__":
    sys.exit(main())
