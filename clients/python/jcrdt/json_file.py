"""What a document shows as a file of JSON, with counters and conflicts, and such a file into a document.

usage: export ADDRESS DOC FILE        (HOST:PORT of a running server; `-` for standard output)
       load-json ADDRESS DOC FILE     (`-` for standard input)

A counter is {"$counter": 5}, a conflict {"$conflict": ["a", "b"]}, and a key that begins with $ has one more in
front. load-json sends what differs alone, and deletes what the file doesn't have: a second time it sends nothing.
Where the document has no room for that, it changes nothing. Each value of a conflict that isn't there yet is one of
the document's 256 replicas. `save` and `load` keep a document with its operations.
"""

import argparse
import json
from typing import Sequence

from .replaced_file import replaced
from .session import connected
from .terminal import checked_address, say


def main(words: Sequence[str]) -> int:
    parser = argparse.ArgumentParser(prog=words[0], description=__doc__, formatter_class=argparse.RawDescriptionHelpFormatter)
    parser.add_argument("address", metavar="ADDRESS", type=checked_address)
    for name, shown in (("document", "DOC"), ("file", "FILE")):
        parser.add_argument(name, metavar=shown)
    asked = parser.parse_args(words[1:])
    with connected(asked.address) as server:
        server.open(asked.document)
        if words[0] == "export":
            text = json.dumps(server.export(asked.document), ensure_ascii=False, indent=1) + "\n"
            with replaced(asked.file) as file:
                file.write(text.encode())
            return 0
        with open(0 if asked.file == "-" else asked.file, "rb", closefd=asked.file != "-") as lines:
            count = server.load_json(asked.document, [0], json.load(lines))
    say(f"loaded: {count} operations" if count else "loaded: nothing differed")
    return 0


