"""The commands that let the proved code answer: run (the printed program), ledger and status (the library)."""

import shutil
import subprocess
import sys
import tempfile

from .answers import Report, answer_lines
from .commands import single
from .decode import cut_frames, decode_attempt, decode_image, decode_status
from .encode import join_frames
from .faults import Fault, Malformed
from .files import read_attempts, read_bytes, replace_bytes, write_new
from .library import ROOT, Library
from .primitives import Names, parse_primitive
from .refusals import DISPOSITIONS, REFUSALS, STANDINGS
from .rules import broken_rules

PROGRAM = ROOT / "crates" / "attempts" / "out" / "attempts"


def summary(data, names):
    """What an attempt is about, in a few words; and what is wrong with its bytes, or nothing."""
    try:
        attempt = decode_attempt(data)
    except Malformed as why:
        return f"attempt of {len(data)} bytes", str(why)
    registry = attempt.named("registry")
    if attempt.kind == "vcp":
        registry = attempt.named("said")
    if attempt.kind == "brv" and attempt.seal.kind == "Event":
        registry = attempt.seal.i
    words = [names.brief(said) for said in (attempt.named("credential"), registry) if said]
    return f"{attempt.kind} {' in '.join(words)}", ""


def answer_text(position, report, data, names):
    """The line of the printed program, and the same in words."""
    about, fault = summary(data, names)
    what = report.row.name if report.number else "accepted"
    lines = [f"{position} {report.number} {report.letter}  {about}: {what}"]
    if report.number == 1 and fault:
        lines.append(f"    {fault}")
    lines += [f"    {line}" for line in answer_lines(report)[1 if report.number == 1 and fault else 0 :]]
    return "\n".join(lines)


def _printed(data):
    """What the printed program writes of an input."""
    with tempfile.NamedTemporaryFile() as file:
        file.write(data)
        file.flush()
        file.seek(0)
        if shutil.which("rt"):
            if not PROGRAM.is_file():
                print("jamfell: the printed program is proved and built first, which takes some minutes", file=sys.stderr)
            said = subprocess.run([ROOT / "run.sh", file.name], stdin=subprocess.DEVNULL, capture_output=True, text=True)
        elif PROGRAM.is_file():
            said = subprocess.run([PROGRAM], stdin=file, capture_output=True, text=True)
        else:
            raise Fault("the printed program is not there, and neither is `rt`, which makes it")
    if said.returncode:
        raise Fault(f"the printed program ended with {said.returncode}: {(said.stderr or said.stdout).strip()}")
    return said.stdout.splitlines()


def _report_of(line):
    """The number and the letter of a line of the printed program."""
    words = line.split(" ")
    if len(words) != 3 or not words[1].isdecimal() or int(words[1]) not in REFUSALS or words[2] not in DISPOSITIONS:
        raise Fault(f"the printed program wrote a line that can't be: '{line}'")
    return Report(int(words[1]), words[2])


def run(args):
    names = Names()
    if args.bytes:
        data = read_bytes(args.file)
        attempts = [attempt for _, attempt in cut_frames(data)[0]]
    else:
        attempts = read_attempts(args.file, names)
        data = join_frames(attempts)
    *lines, last = _printed(data) or [""]
    if len(lines) != len(attempts):
        raise Fault(f"the printed program wrote {len(lines)} lines of {len(attempts)} attempts")
    for position, (line, attempt) in enumerate(zip(lines, attempts), 1):
        print(answer_text(position, _report_of(line), attempt, names))
    print(last)
    if last == "broken":
        raise Fault(f"{args.file}: broken: {cut_frames(data)[1]}")
    return 0


def _image_fault(image):
    """Why an image is refused, by this tool's own reading of it."""
    try:
        ledger, starts = decode_image(image)
    except Malformed as why:
        return str(why)
    for kind, place, why in broken_rules(ledger):
        return f"byte {starts[kind][place]} ({kind} {place + 1}): {why}"
    return "this tool finds no fault in it"


def _load(library, path):
    """The ledger of an image, and the image."""
    try:
        image = read_bytes(path)
    except FileNotFoundError:
        raise Fault(f"{path}: it is not there; `ledger new` makes an empty one") from None
    ledger = library.empty()
    report = library.read_image(ledger, image)
    if report.number:
        raise Fault(f"{path}: the image is refused with {report.number} {report.row.name}: {_image_fault(image)}")
    return ledger, image


def _counts(image):
    try:
        ledger, _ = decode_image(image)
    except Malformed as why:
        raise Fault(f"the library wrote an image that this tool can't read: {why}") from None
    return f"registries {len(ledger.registries)} credentials {len(ledger.credentials)}"


def _written(library, ledger):
    report, image = library.write_image(ledger)
    if report.number:
        raise Fault(f"the library refuses to write the ledger, with {report.number} {report.row.name}")
    return image


def ledger_new(args):
    library = Library(args.library)
    image = _written(library, library.empty())
    write_new(args.image, image)
    print(_counts(image))
    return 0


def ledger_apply(args):
    names = Names()
    attempts = read_attempts(args.file, names, args.bytes)
    library = Library(args.library)
    ledger, before = _load(library, args.image)
    for position, attempt in enumerate(attempts, 1):
        print(answer_text(position, library.apply(ledger, attempt), attempt, names))
    image = _written(library, ledger)
    if image != before:
        replace_bytes(args.image, image)
    print(_counts(image))
    return 0


def _key(word, what):
    try:
        return parse_primitive(word, "said")
    except ValueError as why:
        raise Fault(f"{what}: {why}") from None


def ledger_standing(args):
    registry = _key(args.registry, "REGISTRY")
    credential = _key(args.credential, "CREDENTIAL")
    library = Library(args.library)
    ledger, _ = _load(library, args.image)
    report = library.look_up(ledger, registry, credential)
    if report.number:
        raise Fault(f"the look-up is refused with {report.number} {report.row.name}")
    standing = report.values[0]
    if standing not in STANDINGS:
        raise Fault(f"the look-up answers {standing}, which is no standing")
    print(f"{standing} {STANDINGS[standing]}")
    return 0


def status(args):
    """What `status` answers to a text, or to bytes."""
    data = read_bytes(args.file) if args.bytes else single(args.file, "status")
    report = Library(args.library).status(data)
    print(f"{report.number} {report.letter}  status: {report.row.name if report.number else 'accepted'}")
    if report.number == 1:
        try:
            decode_status(data)
        except Malformed as why:
            print(f"    {why}")
    for line in answer_lines(report):
        print(f"    {line}")
    return 0
