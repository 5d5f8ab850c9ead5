"""What a hub has of a document that is in another generation than a replica."""

from typing import TYPE_CHECKING, Dict, List, Set, Tuple

from .carrying import Step
from .generations import generation_of, move_from, names_since
from .session import Session
from .wire import Front, Operation, Refused, Renewed, covers, front_of

if TYPE_CHECKING:
    from .replica import Replica

# In so many rounds a document may be renewed while it is read.
ROUNDS = 8


class Later:
    """The generations of a document behind that of a front. `past` is the name under which that one is read."""

    def __init__(self, client: Session, document: str, front: Front) -> None:
        self.client, self.document, self.generation = client, document, generation_of(front)
        self.past = f"{document}/{self.generation}"
        # What was read of generations, which take no changes any more: of which it has what others stored, too.
        self._steps: Dict[Tuple[str, str], Step] = {}
        self._complete: Set[str] = set()
        client.open(document)

    def found(self, replica: "Replica") -> Tuple[List[Step], List[Operation]]:
        """The steps from the replica's generation on, and the log of the last one. Raises ValueError where the hub has no such
        generation."""
        for _ in range(ROUNDS):
            names = self.client.run(names_since(self.document, self.generation))
            steps = [self._step(*it) for it in zip(names, names[1:])]
            self._add_others(replica, names, steps)
            try:
                log = list(self.client.operations(self.document))
            except Renewed:
                continue
            if generation_of(front_of(log)) == names[-1]:
                return steps, log
        raise TimeoutError(f"{self.document} is renewed again and again")

    def _step(self, name: str, following: str) -> Step:
        """The step from a generation to the one that follows it: read once, however often the document is renewed meanwhile."""
        if (name, following) not in self._steps:
            self._steps[name, following] = Step(*self.client.run(move_from(self.document, name)), others=[])
        return self._steps[name, following]

    def _add_others(self, replica: "Replica", names: List[str], steps: List[Step]) -> None:
        """Adds what others stored in these generations, where something is carried that clears."""
        unsent = [it for it in replica.operations() if steps and not covers(steps[0].end, it[1])]
        if not any(it[4][0] in ("assign", "delete") for it in unsent):
            return
        for number, step in enumerate(steps):
            if names[number] in self._complete:
                continue
            known = steps[number - 1].start if number else replica.front()
            past = f"{self.document}/{names[number]}"
            try:
                self.client.open(past)
                step.others[:] = self.client.operations(past, known)
                self._complete.add(names[number])
            except Refused:
                # It isn't kept.
                pass
