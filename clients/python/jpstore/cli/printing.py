"""How the command line and the shell print their results."""
import argparse
import json
import sys
from typing import Any, Dict

from ..client import Store
from ..wire.values import canonical

__all__ = ["accepted", "done", "print_changes", "print_record", "said"]


def said(words: argparse.Namespace, value: Any, *lines: str) -> None:
    """Prints a result: a line of JSON with --json, else lines for people."""
    told = [json.dumps(value, ensure_ascii=False)] if getattr(words, "json", False) else lines
    sys.stdout.writelines(line + "\n" for line in told)


def accepted(words: argparse.Namespace, seq: int, count: int = 1) -> None:
    """Prints the number of the last of so many changes that were made."""
    said(words, {"seq": seq}, done(seq, count))


def done(seq: int, count: int = 1) -> str:
    """What is said of so many changes, the last of which has this number."""
    return f"done, change {seq:,}" if count == 1 else f"done, changes {seq - count + 1:,} to {seq:,}"


def print_changes(store: Store, since: int) -> None:
    """Prints the transactions after a change, each as a line of JSON, until nothing is newer."""
    told = store.changes(since)
    while told.transactions:
        for transaction in told:
            print_record(transaction.record())
        told = store.changes(told.transactions[-1].last)


def print_record(record: Dict[str, Any]) -> None:
    """Prints a line of JSON at once."""
    print(canonical(record).decode(), flush=True)
