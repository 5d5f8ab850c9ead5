"""What is wrong with a member of a relay, by few lines: when it begins, each hour while it lasts, and when it has ended."""

import time
from typing import Callable, Dict, List, Optional

# How often what lasts is told again, and for how long lines of one cause are counted, in seconds.
HOUR = 3600.0
# How many lines of one cause are told within that time. What begins and ends all the time fills no journal.
MOST = 10


class _Trouble:
    """Something of one cause, while it lasts and afterwards."""

    def __init__(self, now: float) -> None:
        self.since, self.is_there = now, False
        # When each reason was told last, as long as it lasts.
        self.told: Dict[str, float] = {}
        # Since when lines are counted, how many were told, and how many weren't.
        self.counted_since, self.count, self.left_out = now, 0, 0
        # Its end, if that wasn't told.
        self.unsaid: Optional[str] = None
        # How it was told last, or would have been.
        self.line = ""


class Troubles:
    """The troubles of one member. Each has a cause, and may have several reasons, one after the other."""

    def __init__(self, tell: Callable[[str], None], clock: Callable[[], float] = time.monotonic) -> None:
        """`tell` takes the lines, and `clock` says what time it is, in seconds."""
        self._tell, self._clock = tell, clock
        self._known: Dict[str, _Trouble] = {}

    def begin(self, cause: str, reason: str, line: str) -> None:
        """To be called each time that the trouble is met. Tells the line if the reason is new in it, or was told an hour ago."""
        now = self._clock()
        trouble = self._known.setdefault(cause, _Trouble(now))
        if not trouble.is_there:
            trouble.is_there, trouble.since, trouble.unsaid = True, now, None
            trouble.told.clear()
        trouble.line = line
        last = trouble.told.get(reason)
        if last is not None and now - last < HOUR:
            return
        if self._say(trouble, line if last is None else f"{line} (for {(now - trouble.since) / HOUR:.0f} h)"):
            trouble.told[reason] = now

    def lasting(self) -> List[str]:
        """The lines of what is wrong now."""
        return [it.line for it in self._known.values() if it.is_there]

    def end(self, cause: str, line: Optional[str] = None) -> None:
        """To be called whenever all is well. Tells the line, if there is one, once for each trouble."""
        trouble = self._known.get(cause)
        if trouble is None:
            return
        if trouble.is_there:
            trouble.is_there, trouble.unsaid = False, line
        if trouble.unsaid is not None and self._say(trouble, trouble.unsaid):
            trouble.unsaid = None

    def _say(self, trouble: _Trouble, line: str) -> bool:
        """Tells a line, unless there were many of its cause in the last hour."""
        now = self._clock()
        if now - trouble.counted_since >= HOUR:
            if trouble.left_out:
                line += f" ({trouble.left_out} more times meanwhile)"
            trouble.counted_since, trouble.count, trouble.left_out = now, 0, 0
        if trouble.count >= MOST:
            trouble.left_out += 1
            return False
        trouble.count += 1
        self._tell(line if trouble.count < MOST else f"{line} (this happens often: it is told again in an hour)")
        return True
