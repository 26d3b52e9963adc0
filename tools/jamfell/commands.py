"""The commands that need nothing but bytes and text: make, show, explain."""

import re
import sys

from .answers import cause, decode_report, explain_number, explain_report, refusal
from .decode import cut_frames, decode_attempt, decode_credential, decode_image, decode_registry, decode_status
from .encode import encode_credential, encode_image, encode_registry, encode_status, join_frames
from .faults import Fault, Malformed
from .files import read_attempts, read_blocks, read_bytes, read_words, write_bytes
from .primitives import Names
from .refusals import REFUSALS
from .rules import broken_rules
from .to_text import attempt_text, credential_text, raw_text, registry_text, status_text
from .values import MOST_ATTEMPTS, MOST_CREDENTIALS, MOST_REGISTRIES, Ledger


def names_of(paths):
    names = Names()
    for path in paths or ():
        names.learn(read_words(path))
    return names


def complain(path, why):
    sys.stdout.flush()
    print(f"jamfell: {path}: {why}", file=sys.stderr)


# What a file of bytes can have: the header of its one block, its encoder, its decoder, its text.
SINGLES = {
    "registry": ("registry-state", encode_registry, decode_registry, registry_text),
    "credential": ("credential-state", encode_credential, decode_credential, credential_text),
    "status": ("status", encode_status, decode_status, status_text),
    "attempt": ("attempt", lambda attempt: attempt, decode_attempt, attempt_text),
}


def single(path, form):
    """The bytes of a text that has one block."""
    header, encode, _, _ = SINGLES[form]
    blocks, _ = read_blocks(path)
    if len(blocks) != 1 or blocks[0][0].split()[0] != header:
        raise Fault(f"{path}: one '{header}' is wanted, and here is {', '.join(block[0] for block in blocks) or 'nothing'}")
    return encode(blocks[0][2])


def _image(path):
    """The image of a text that has registry-states and credential-states."""
    blocks, _ = read_blocks(path)
    found = {"registry-state": [], "credential-state": []}
    for header, line, value in blocks:
        if header not in found:
            raise Fault(f"{path}: line {line}: an image has registry-states and credential-states, and no '{header}'")
        found[header].append((line, value))
    for header, most in (("registry-state", MOST_REGISTRIES), ("credential-state", MOST_CREDENTIALS)):
        if len(found[header]) > most:
            raise Fault(f"{path}: line {found[header][most][0]}: an image has at most {most} '{header}'")
    ledger = Ledger(*(tuple(value for _, value in states) for states in found.values()))
    for kind, place, why in broken_rules(ledger):
        raise Fault(f"{path}: line {found[kind + '-state'][place][0]}: {kind} {place + 1}: {why}")
    return encode_image(ledger)


def make(args):
    if args.form == "image":
        data = _image(args.file)
    elif args.form:
        data = single(args.file, args.form)
    else:
        attempts = read_attempts(args.file, Names())
        if len(attempts) > MOST_ATTEMPTS:
            raise Fault(f"{args.file}: there are {len(attempts)} attempts, and an input has at most {MOST_ATTEMPTS}")
        data = join_frames(attempts)
    write_bytes(args.output, data)
    return 0


def _other_form(data):
    """What bytes are that are no input of the printed program, where that is plain."""
    if data and all(byte in b"\t\n\r" or 32 <= byte < 127 for byte in data):
        return "; it is text, which `make` reads"
    for form, decode in [("image", decode_image)] + [(form, single[2]) for form, single in SINGLES.items()]:
        try:
            decode(data)
            return f"; it can be read with --{form}"
        except Malformed:
            continue
    return ""


def _show_attempts(path, names):
    """All attempts that are there whole. One that is malformed is told in bytes, with the place of its fault."""
    data = read_bytes(path)
    frames, broken = cut_frames(data)
    status = 0
    for position, (start, attempt) in enumerate(frames, 1):
        if position > 1:
            print()
        print(f"# attempt {position}: {len(attempt)} bytes from byte {start}")
        try:
            print(attempt_text(decode_attempt(attempt), names), end="")
        except Malformed as why:
            print(f"# malformed: {why}")
            print(raw_text(attempt), end="")
            complain(path, f"attempt {position} is malformed: {why}, which is byte {start + why.at} of the file")
            status = 1
    if broken:
        complain(path, f"broken: {broken}{_other_form(data)}")
        status = 1
    return status


def _show_image(path, names):
    """All states, also where a reading rule is broken."""
    ledger, starts = decode_image(read_bytes(path))
    for place, state in enumerate(ledger.registries):
        print(f"# registry {place + 1}: from byte {starts['registry'][place]}")
        print(registry_text(state, names))
    for place, state in enumerate(ledger.credentials):
        print(f"# credential {place + 1}: from byte {starts['credential'][place]}; {'Revoked' if state.sn else 'Issued'}")
        print(credential_text(state, names))
    print(f"# registries {len(ledger.registries)} credentials {len(ledger.credentials)}")
    faults = list(broken_rules(ledger))
    for kind, place, why in faults:
        complain(path, f"byte {starts[kind][place]} ({kind} {place + 1}): {why}")
    return 1 if faults else 0


def show(args):
    names = names_of(args.names)
    if not args.form:
        return _show_attempts(args.file, names)
    try:
        if args.form == "image":
            return _show_image(args.file, names)
        _, _, decode, text = SINGLES[args.form]
        print(text(decode(read_bytes(args.file)), names), end="")
    except Malformed as why:
        raise Fault(f"{args.file}: {why}") from None
    return 0


def _hex(word):
    digits = "".join(word.split())
    if not re.fullmatch(r"(?:[0-9A-Fa-f]{2})*", digits):
        raise Fault(f"a report is given in hex digits, two for each byte, and not as '{word}'")
    return bytes.fromhex(digits)


def explain(args):
    if args.report is not None:
        lines = explain_report(decode_report(_hex(args.report)))
    elif args.number is None:
        lines = [f"{row.number:2} {'/'.join(row.letters):3} {row.name}: {cause(row)}" for row in REFUSALS.values()]
    elif re.fullmatch(r"[0-9]{1,4}", args.number):
        lines = explain_number(refusal(int(args.number)))
    else:
        raise Fault(f"'{args.number}' is no number: the numbers are 0 to {max(REFUSALS)}")
    print("\n".join(lines))
    return 0
