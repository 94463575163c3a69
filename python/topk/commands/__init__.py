"""The commands of `python3 -m topk`: `rank`, `lists`, `explain` and `check`.

A command ends with 0 where it did what was asked, with 1 where something stands against it, and with 2 where its words
are no command.
"""
from __future__ import annotations

import argparse
import os
import sys
from collections.abc import Sequence

from topk._version import __version__
from topk.commands import check, explain, lists, rank
from topk.faults import NoCore, Refused, TableError
from topk.sentences import UNHEARD, meaning

__all__ = ["main"]


def main(given: Sequence[str] | None = None) -> int:
    """Does what the words say, those of the process where none are given, and gives the exit status."""
    asked = _words().parse_args(given)
    try:
        status: int = asked.command(asked)
        sys.stdout.flush()
        return status
    except BrokenPipeError:  # Whoever reads the output has enough, as `head`.
        os.dup2(os.open(os.devnull, os.O_WRONLY), sys.stdout.fileno())
        return 1
    except (TableError, NoCore) as fault:
        return _said(str(fault))
    except Refused as fault:
        said = meaning([fault.name, *map(str, fault.fields)])
        return _said(f"refused {fault}" if said == UNHEARD else f"{said.sentence} {said.cure}")
    except OSError as fault:
        return _said(f"{fault.filename}: {fault.strerror}" if fault.filename else str(fault))
    except UnicodeDecodeError as fault:
        return _said(f"the file is no text in {fault.encoding}: byte {fault.start} isn't; --encoding names another")
    except MemoryError:
        return _said("there is too little memory")
    except KeyboardInterrupt:
        return 130


def _said(why: str) -> int:
    print(f"topk: {why}", file=sys.stderr)
    return 1


def _words() -> argparse.ArgumentParser:
    made = argparse.ArgumentParser(
        prog="python3 -m topk",
        description="The best rows of a table by several criteria, with a certificate.",
        epilog="`python3 -m topk rank --help` and so on have an example of each command.",
        allow_abbrev=False,
    )
    made.add_argument("--version", action="version", version=f"topk {__version__}")
    commands = made.add_subparsers(metavar="COMMAND", required=True)
    for it in (rank, lists, explain, check):
        it.add_to(commands)
    return made
