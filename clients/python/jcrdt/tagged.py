"""A document's value as JSON that keeps counters and conflicts, and isn't mistaken for maps that people wrote.

    {"$counter": 5}               a counter
    {"$conflict": ["a", "b"]}     several values at one place: a map, a list, scalars in the order of their ids, a counter
    {"$$price": 1}                a map with the key `$price`: a key of a document that begins with $ has one more in front

Nothing else begins with $. A counter's sum is an integer of any size. A place that holds nothing is null.
"""

from typing import Any, Dict

from .wire import Conflict, Counter, is_integer

MARK, COUNTER, CONFLICT = "$", "$counter", "$conflict"


def tagged(value: Any) -> Any:
    """What `plain` gives as JSON with tags."""
    if isinstance(value, Counter):
        return {COUNTER: value["counter"]}
    if isinstance(value, Conflict):
        return {CONFLICT: [tagged(it) for it in value["conflict"]]}
    if isinstance(value, dict):
        return {MARK + key if key.startswith(MARK) else key: tagged(inner) for key, inner in value.items()}
    return [tagged(it) for it in value] if isinstance(value, list) else value


def untagged(data: Any, place: str = "") -> Any:
    """The value of JSON with tags. Raises ValueError, which names the part, for a tag that is none."""
    if isinstance(data, list):
        return [untagged(it, f"{place}/{number}") for number, it in enumerate(data, 1)]
    if not isinstance(data, dict):
        return data
    if list(data) == [COUNTER]:
        return _counter(data[COUNTER], place)
    if list(data) == [CONFLICT]:
        return _conflict(data[CONFLICT], place)
    return {_key(key, place): untagged(inner, f"{place}/{key}") for key, inner in data.items()}


def _key(key: Any, place: str) -> Any:
    if not isinstance(key, str) or not key.startswith(MARK):
        return key
    if not key.startswith(MARK + MARK):
        raise ValueError(f"{place or '/'}: {key!r:.40} is no tag: a key that begins with $ has one more in front")
    return key[len(MARK):]


def _counter(number: Any, place: str) -> Counter:
    if not is_integer(number):
        raise ValueError(f"{place or '/'}: the sum of a counter is an integer")
    return Counter(number)


def _conflict(data: Any, place: str) -> Conflict:
    values = untagged(data, place)
    kinds: Dict[type, int] = {}
    for it in values if isinstance(data, list) else []:
        kinds[type(it)] = kinds.get(type(it), 0) + 1
    if not kinds or Conflict in kinds or any(kinds.get(it, 0) > 1 for it in (Counter, dict, list)):
        raise ValueError(f"{place or '/'}: a conflict is a list of scalars, and of at most one map, one list and one counter")
    return Conflict(values)
