"""jcrdt: sessions and tools for a server of shared JSON documents.

`connected` and `started` make a Session; `jcrdt.aio` has sessions for asyncio. `Writes` keeps writes until they are on
disk. `followed` yields each change of a document. `Desk` is for who runs a hub with documents. `python -m jcrdt` has the tools.
"""

from .desk import Desk, DocumentState
from .follow import followed, followed_file, front_after
from .generations import Generation, generation_of
from .stored_log import StoredLog, front_on_disk
from .programs import program, serving, started
from .session import Session, connected
from .wire import Away, Conflict, Counter, Lost, Refused, Renewed, Size, covers, plain, settled
from .writes import Writes

__all__ = ["Away", "Conflict", "Counter", "Desk", "DocumentState", "Generation", "Lost", "Refused", "Renewed", "Session", "Size",
           "StoredLog", "Writes", "connected", "covers", "followed", "followed_file", "front_after", "front_on_disk", "generation_of",
           "plain", "program", "serving", "settled", "started"]
__version__ = "1.4.3"
