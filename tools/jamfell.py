#!/usr/bin/env python3
"""Jamfell for people: text to attempts, attempts and ledgers to text, and answers in words. docs/WALKTHROUGH.md shows how it is used."""

import argparse
import os
import sys

# The modules stand in a folder of the repository, which stays as it is.
sys.dont_write_bytecode = True

from jamfell import commands, running
from jamfell.faults import Fault

FORMS = {
    "attempt": "one attempt, without count and length",
    "image": "the image of a ledger",
    "registry": "a registry state",
    "credential": "a credential state",
    "status": "an input of `status`",
}


def _forms(command):
    group = command.add_mutually_exclusive_group()
    for form, what in FORMS.items():
        group.add_argument(f"--{form}", dest="form", action="store_const", const=form, help=f"the bytes are {what}")


def _bytes_commands(words):
    command = words.add_parser("make", help="text to bytes: attempts for the printed program, or what a switch names")
    command.add_argument("file", help="the text; - is standard input")
    command.add_argument("-o", "--output", required=True, help="where the bytes go; - is standard output")
    _forms(command)
    command.set_defaults(do=commands.make)

    command = words.add_parser("show", help="bytes to text: the printed program's input, or what a switch names")
    command.add_argument("file", help="the bytes; - is standard input")
    command.add_argument("--names", nargs="+", metavar="TEXT", help="texts whose names, as E:pipe-12, are put in place of hex digits")
    _forms(command)
    command.set_defaults(do=commands.show)

    command = words.add_parser("explain", help="a number in words, or a report; without a word all numbers")
    command.add_argument("number", nargs="?", help="0 to 39")
    command.add_argument("--report", metavar="HEX", help="the 36 bytes of a report, in hex digits")
    command.set_defaults(do=commands.explain)


def _calling_commands(words):
    bytes_help = "the file has bytes, as `make` writes them, and no text"
    library_help = "the library's archive or a shared object of it; without this, target/staticlib/libhost.a"

    command = words.add_parser("run", help="what the printed program answers to attempts, in words")
    command.add_argument("file", help="the attempts, as text; - is standard input")
    command.add_argument("--bytes", action="store_true", help=bytes_help)
    command.set_defaults(do=running.run)

    command = words.add_parser("status", help="what `status` answers to an input, in words")
    command.add_argument("file", help="the input, as text; - is standard input")
    command.add_argument("--bytes", action="store_true", help=bytes_help)
    command.add_argument("--library", help=library_help)
    command.set_defaults(do=running.status)

    ledger = words.add_parser("ledger", help="a ledger in a file: new, apply, standing")
    words = ledger.add_subparsers(required=True, metavar="COMMAND")
    for name, do, what in (
        ("new", running.ledger_new, "write the image of an empty ledger to a new file"),
        ("apply", running.ledger_apply, "apply attempts to the ledger, and say what it answers to each"),
        ("standing", running.ledger_standing, "the standing of a credential"),
    ):
        command = words.add_parser(name, help=what)
        command.add_argument("image", help="the file with the ledger's image")
        command.add_argument("--library", help=library_help)
        command.set_defaults(do=do)
        if name == "apply":
            command.add_argument("file", help="the attempts, as text; - is standard input")
            command.add_argument("--bytes", action="store_true", help=bytes_help)
        if name == "standing":
            command.add_argument("registry", help="the registry's said, as E:name or a letter and 64 hex digits")
            command.add_argument("credential", help="the credential's said")


def _arguments(given):
    parser = argparse.ArgumentParser(prog="jamfell.py", description=__doc__)
    words = parser.add_subparsers(required=True, metavar="COMMAND")
    _bytes_commands(words)
    _calling_commands(words)
    return parser.parse_args(given)


def _streams():
    """Standard streams that take every character, and are there even where the caller closed them."""
    for name, mode in (("stdin", "r"), ("stdout", "w"), ("stderr", "w")):
        if getattr(sys, name) is None:
            setattr(sys, name, open(os.devnull, mode))
    for stream in (sys.stdout, sys.stderr):
        stream.reconfigure(errors="backslashreplace")


def main(given=None):
    _streams()
    args = _arguments(given)
    try:
        status = args.do(args)
        sys.stdout.flush()
        return status
    except Fault as why:
        told = str(why)
    except BrokenPipeError:
        # Whoever read the output has had enough.
        told = ""
    except OSError as why:
        told = f"{why.filename or 'output'}: {why.strerror or why}"
    except KeyboardInterrupt:
        return 130
    try:
        sys.stdout.flush()
    except OSError:
        # The output takes no more, so what is left of it goes nowhere.
        os.dup2(os.open(os.devnull, os.O_WRONLY), sys.stdout.fileno())
    if told:
        print(f"jamfell: {told}", file=sys.stderr)
    return 1


if __name__ == "__main__":
    sys.exit(main())
