"""The host's library, target/staticlib/libhost.a, called from here. It is proved; the tool only hands bytes over and reads reports.

An archive can't be loaded by a running program, so gcc makes a shared object of it first.
"""

import ctypes
import shutil
import subprocess
import tempfile
from pathlib import Path

from .answers import REPORT_LENGTH, decode_report
from .faults import Fault, Malformed

ROOT = Path(__file__).resolve().parent.parent.parent
ARCHIVE = ROOT / "target" / "staticlib" / "libhost.a"

# A ledger is one block of so many bytes, aligned to 8.
LEDGER_LENGTH = 47760
# No image is longer than this: 16 registries with 8 traits and 16 backers each, and 256 credentials.
IMAGE_ROOM = 2 + 16 * (33 + 33 + 16 + 33 + 4 + 1 + 8 + 1 + 16 * 33) + 2 + 256 * 115

_Ledger = ctypes.c_uint64 * (LEDGER_LENGTH // 8)
_Report = ctypes.c_uint8 * REPORT_LENGTH
_LENT = [ctypes.c_char_p, ctypes.c_size_t]
_WRITTEN = [ctypes.c_void_p, ctypes.c_size_t]
_CALLS = {
    "jamfell_apply": [ctypes.c_void_p] + _LENT,
    "jamfell_look_up": [ctypes.c_void_p] + _LENT + _LENT,
    "jamfell_write_image": [ctypes.c_void_p] + _WRITTEN,
    "jamfell_read_image": [ctypes.c_void_p] + _LENT,
    "jamfell_status": _LENT,
}


def shared_object(archive, folder):
    """A shared object that has all of the archive."""
    compiler = shutil.which("gcc") or shutil.which("cc")
    if not compiler:
        raise Fault("this command calls the library, and for that a C compiler has to be there (gcc)")
    made = Path(folder) / "jamfell.so"
    words = [compiler, "-shared", "-Wl,-z,defs", "-o", made, "-Wl,--whole-archive", archive, "-Wl,--no-whole-archive"]
    said = subprocess.run(words, capture_output=True, text=True, errors="replace")
    if said.returncode:
        raise Fault(f"{archive}: no shared object can be made of it: {said.stderr.strip()}")
    return made


class Library:
    def __init__(self, archive=None):
        archive = Path(archive or ARCHIVE)
        if not archive.is_file():
            raise Fault(f"{archive}: the library is not there; tools/library.sh makes it")
        with tempfile.TemporaryDirectory() as folder:
            try:
                self._object = ctypes.CDLL(str(shared_object(archive, folder) if archive.suffix == ".a" else archive.resolve()))
            except OSError as why:
                raise Fault(f"{archive}: it can't be loaded: {why}") from None

    def _function(self, name, parameters, result):
        try:
            call = getattr(self._object, name)
        except AttributeError:
            raise Fault(f"the library has no call {name}: it is another or an older one") from None
        call.argtypes = parameters
        call.restype = result
        return call

    def _answer(self, name, *words, values=0):
        """Makes a call, and gives its report. After acceptance it has so many values."""
        call = self._function(name, _CALLS[name] + [ctypes.c_void_p], ctypes.c_uint8)
        report = _Report()
        number = call(*words, report)
        if number != report[0]:
            raise Fault(f"{name} answers {number}, and its report says {report[0]}: this is not the library that was meant")
        if number == 0 and report[3] != values:
            raise Fault(f"{name} wrote a report with {report[3]} values, and not {values}: this is not the library that was meant")
        try:
            return decode_report(bytes(report))
        except Malformed as why:
            raise Fault(f"{name} wrote a report that can't be ({bytes(report).hex()}): {why}") from None

    def empty(self):
        """A block of memory with an empty ledger."""
        ledger = _Ledger()
        self._function("jamfell_empty", [ctypes.c_void_p], None)(ledger)
        return ledger

    def apply(self, ledger, attempt):
        return self._answer("jamfell_apply", ledger, attempt, len(attempt))

    def look_up(self, ledger, registry, credential):
        return self._answer("jamfell_look_up", ledger, registry, len(registry), credential, len(credential), values=1)

    def read_image(self, ledger, image):
        return self._answer("jamfell_read_image", ledger, image, len(image))

    def write_image(self, ledger):
        """The report, and the image that was written."""
        room = ctypes.create_string_buffer(IMAGE_ROOM)
        report = self._answer("jamfell_write_image", ledger, room, IMAGE_ROOM, values=1)
        return report, room.raw[: report.values[0]] if report.number == 0 else b""

    def status(self, data):
        return self._answer("jamfell_status", data, len(data))
