"""What the tools share: how they print, and how they end."""

import argparse
import sys

from .wire import host_and_port, shown_safely


def checked_address(text: str) -> str:
    """HOST:PORT among a tool's arguments. Anything else is a wrong command line."""
    try:
        host_and_port(text)
    except ValueError as error:
        raise argparse.ArgumentTypeError(str(error)) from None
    return text


def say(line: str = "") -> None:
    """Prints a line at once, without control characters: what a document has may have some."""
    print(shown_safely(line), flush=True)


def say_error(line: str) -> None:
    print(shown_safely(line), file=sys.stderr, flush=True)
