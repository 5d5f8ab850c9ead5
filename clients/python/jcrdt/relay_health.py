"""What a relay tells a monitor: whether all that it keeps in agreement is there and alike, and its figures."""

from typing import TYPE_CHECKING, Any, Callable, Dict, List

from .pages import Figure, Page, health_page, metrics_page

if TYPE_CHECKING:
    from .relay import Place, Relay


def lag(place: "Place") -> int:
    """How many operations of the document's log a member doesn't have, by their fronts."""
    return sum(max(0, counter - place.has.get(replica, 0)) for replica, counter in place.log.front.items())


def _lags(relay: "Relay", address: str) -> Dict[str, int]:
    return {place.log.name: lag(place) for member in relay.members if member.address == address for place in member.places}


def state(relay: "Relay") -> Dict[str, Any]:
    """Whether all is well, as an object for JSON. It is where each member is connected, and no trouble lasts. `cause` has the lines of the
    troubles. A member lacks what its `lacks` counts by document: that is a lag, and no trouble."""
    causes: List[str] = [line for member in relay.members for line in member.troubles.lasting()]
    causes += [f"{member.address}: not connected so far" for member in relay.members if not member.is_on and not member.troubles.lasting()]
    causes += relay.troubles.lasting()
    return {
        "well": not causes,
        "cause": "; ".join(causes),
        "members": {it.address: {"connected": it.is_on, "lacks": _lags(relay, it.address)} for it in relay.members},
        "documents": {log.name: {"operations": len(log.operations), "replicas": len(log.front)} for log in relay.logs},
    }


def figures(relay: "Relay") -> List[Figure]:
    """Its figures."""
    lags = [(f'{{member="{member.address}",document="{place.log.name}"}}', float(lag(place)))
            for member in relay.members for place in member.places]
    return [
        ("well", "gauge", "Whether /health answers 200.", [("", float(state(relay)["well"]))]),
        ("connected", "gauge", "Whether the member is connected.",
         [(f'{{member="{it.address}"}}', float(it.is_on)) for it in relay.members]),
        ("document_operations", "gauge", "Operations of the document that the relay knows.",
         [(f'{{document="{log.name}"}}', float(len(log.operations))) for log in relay.logs]),
        ("lacking_operations", "gauge", "Those of them that the member lacks.", lags),
    ]


def pages(relay: "Relay") -> Dict[str, Callable[[], Page]]:
    """The pages of a relay, by their paths."""
    return {"/health": lambda: health_page(state(relay)), "/metrics": lambda: metrics_page("jcrdt_relay", figures(relay))}
