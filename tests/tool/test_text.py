"""Text to bytes and back, and what is said of texts that are wrong."""

import random
import unittest

from recorded import ROOT, count, decodes, folds, images

from jamfell.decode import decode_attempt, decode_credential, decode_image, decode_registry, decode_status
from jamfell.encode import encode_credential, encode_image, encode_registry, encode_status
from jamfell.faults import BadText, Malformed
from jamfell.from_text import read_text
from jamfell.primitives import Names, named, parse_primitive
from jamfell.to_text import attempt_text, credential_text, raw_text, registry_text, status_text
from jamfell.values import Ledger

SAMPLES = sorted((ROOT / "tools/samples").glob("*.txt"))

IMAGE = """
registry-state
  id E:r
  issuer D:i
  sn 0
  latest E:r
  toad 0
  config NoBackers
credential-state
  registry E:r
  credential E:c
  sn 0
  head E:h
"""

VCP = """attempt vcp
  said E:r
  issuer D:i
  toad 1
  backer B:b
  evidence Issuer D:i
"""
BIS = """attempt bis
  said E:s
  credential E:c
  registry E:r
  seal Event E:r 0 E:r
  evidence Backer
"""


def text_of(data, names):
    try:
        return attempt_text(decode_attempt(data), names)
    except Malformed:
        return raw_text(data)


class RoundTrips(unittest.TestCase):
    def test_attempts(self):
        """Of malformed ones too, which are told as bytes."""
        texts, wanted = [], []
        for _, data in decodes():
            texts.append(text_of(data, Names()))
            wanted.append(data)
        self.assertEqual([value for _, _, value in read_text("\n".join(texts))], wanted)
        count("attempts to text and back", len(wanted))

    def test_states(self):
        forms = {
            "registry-state": (decode_registry, encode_registry, registry_text),
            "credential-state": (decode_credential, encode_credential, credential_text),
            "status": (decode_status, encode_status, status_text),
        }
        for call, _, (_, registry, credential, data) in folds():
            parts = {"registry-state": registry, "credential-state": credential, "status": data if call == 5 else b""}
            for header, part in parts.items():
                decode, encode, told = forms[header]
                try:
                    text = told(decode(part), Names())
                except Malformed:
                    continue
                [(found, _, value)] = read_text(text)
                self.assertEqual((found, encode(value)), (header, part))
                count("states and inputs of status to text and back")

    def test_images(self):
        for _, image in images():
            try:
                ledger, _ = decode_image(image)
            except Malformed:
                continue
            text = "\n".join([registry_text(s, Names()) for s in ledger.registries] + [credential_text(s, Names()) for s in ledger.credentials])
            states = read_text(text)
            again = Ledger(*(tuple(v for h, _, v in states if h == header) for header in ("registry-state", "credential-state")))
            self.assertEqual(encode_image(again), image)

    def test_samples(self):
        """text -> bytes -> text -> bytes, with names and without; and with its names a sample's text comes back word for word."""
        self.assertTrue(SAMPLES)
        for path in SAMPLES:
            if path.name == "mistake.txt":
                continue
            text = path.read_text()
            names = Names()
            names.learn(text)
            for header, _, value in read_text(text):
                self.assertTrue(header.startswith("attempt ") or header == "status", path)
                if header == "status":
                    continue
                for known in (names, Names()):
                    self.assertEqual(read_text(text_of(value, known))[0][2], value, path)
            words = [line.split("#")[0].split() for line in text.splitlines()]
            told = [text_of(v, names) if h != "status" else status_text(v, names) for h, _, v in read_text(text)]
            self.assertEqual([line.split() for line in "".join(told).splitlines()], [line for line in words if line], path)
            count("samples")

    def test_order_is_free(self):
        """Fields may stand in any order, those of one name in theirs."""
        header, *lines = BIS.splitlines()
        [(_, _, wanted)] = read_text(BIS)
        for turn in range(len(lines)):
            [(_, _, value)] = read_text("\n".join([header] + lines[turn:] + lines[:turn]))
            self.assertEqual(value, wanted)

    def test_names(self):
        """A name is the SHA-256 of its characters; hex digits in either case are the same."""
        digest = "ba7816bf8f01cfea414140de5dae2223b00361a396177a9cb410ff61f20015ad"
        self.assertEqual(named("E", "abc"), b"E" + bytes.fromhex(digest))
        for word in ("E:abc", f"E{digest}", f"E{digest.upper()}"):
            self.assertEqual(parse_primitive(word, "said"), named("E", "abc"))
        self.assertEqual(Names().whole(named("E", "abc")), f"E{digest}")
        known = Names()
        known.learn("said E:abc # E:comment")
        self.assertEqual(known.whole(named("E", "abc")), "E:abc")
        self.assertEqual(known.brief(named("E", "comment")), f"E{named('E', 'comment')[1:7].hex()}..")


# A text and what is said of it.
HEX65 = "E" + "0" * 65
WRONG = (
    ("said E:r\n", "line 1: 'said' stands before any header, as 'attempt vcp' or 'status'"),
    ("attempt\n", "line 1: 'attempt' starts nothing; what can be started is attempt vcp, attempt vrt"),
    ("\n\nattempt vpc\n", "line 3: 'attempt vpc' starts nothing (did you mean 'attempt vcp'?); what can be"),
    ("status 1\n", "line 1: 'status 1' starts nothing (did you mean 'status'?); what can be"),
    (VCP + "prior E:x\n", "line 7: attempt vcp has no field 'prior'; it has said, issuer, toad, config, backer, source, anchor"),
    (VCP + "signatur 0 good\n", "line 7: attempt vcp has no field 'signatur' (did you mean 'signature'?); it has"),
    (VCP + "\nsaid E:r\n", "line 8: attempt vcp has at most 1 'said', and the first stands on line 2"),
    (VCP.replace("  said E:r\n", ""), "line 1: attempt vcp needs a line 'said SAID'"),
    (VCP.replace("  toad 1\n", ""), "line 1: attempt vcp needs a line 'toad NUMBER'"),
    (VCP.replace("  evidence Issuer D:i\n", ""), "line 1: attempt vcp needs a line 'evidence Missing|Issuer|Backer|BackerAt'"),
    (VCP.replace("E:r", "D:r"), "line 2: said: 'D:r': a said has the letter E, F, G, H or I, not D"),
    (VCP.replace("B:b", "E:b"), "line 5: backer: 'E:b': a basic prefix has the letter B or D, not E"),
    (VCP.replace("D:i", "A:i"), "line 3: issuer: 'A:i': an identifier has the letter B, D, E, F, G, H or I, not A"),
    (VCP.replace("E:r", "e:r"), "line 2: said: 'e:r': a said has the letter E, F, G, H or I, not e"),
    (VCP.replace("E:r", "E:"), "line 2: said: 'E:' is no said: it is a letter with 64 hex digits, or a letter, a colon and a name"),
    (VCP.replace("E:r", HEX65), f"line 2: said: '{HEX65}' is no said"),
    (VCP.replace("E:r", "E" + "0" * 63 + "g"), "line 2: said: 'E000"),
    (VCP.replace("E:r", "E:stra\u00dfe"), "line 2: said: 'E:stra\u00dfe' is no said"),
    (VCP.replace("said E:r", "said"), "line 2: said: something is missing; the line should be 'said SAID'"),
    (VCP.replace("said E:r", "said E:r E:s"), "line 2: said: 'E:s' is too much; the line should be 'said SAID'"),
    (VCP.replace("toad 1", "toad 4294967296"), "line 4: toad: toad 4294967296 is too large: it is at most 4294967295"),
    (VCP.replace("toad 1", "toad -1"), "line 4: toad: '-1' is no toad: it is a number from 0 to 4294967295, in decimal digits"),
    (VCP.replace("toad 1", "toad 1_0"), "line 4: toad: '1_0' is no toad"),
    (VCP.replace("toad 1", "toad \u0663"), "line 4: toad: '\u0663' is no toad"),
    (VCP.replace("toad 1", "toad " + "9" * 5000), "line 4: toad: '9999999999999999999999999999999999999999..', of 5000 characters, is no toad"),
    (VCP + "config NoBacker\n", "line 7: config: 'NoBacker' is no trait (did you mean 'NoBackers'?); there are EstOnly, DoNotDelegate, NoBackers"),
    (VCP + "config NoBackers\n" * 9, "line 15: attempt vcp has at most 8 'config'"),
    (VCP + "backer B:c\n" * 16, "line 22: attempt vcp has at most 16 'backer'"),
    (VCP + "signature 0 good\n" * 65, "line 71: attempt vcp has at most 64 'signature'"),
    (VCP + "signature 4294967296 good\n", "line 7: signature: index 4294967296 is too large"),
    (VCP + "signature 0 bad\n", "line 7: signature: 'bad' is no verdict; there are failed, good"),
    (VCP + "signature 0\n", "line 7: signature: something is missing; the line should be 'signature INDEX good|failed'"),
    (VCP + "source 0\n", "line 7: source: something is missing; the line should be 'source SN SAID'"),
    (VCP + f"source {2**128} E:k\n", f"line 7: source: sn {2**128} is too large: it is at most {2**128 - 1}"),
    (VCP + "anchor.seal Digest\n", "line 7: 'anchor.seal' needs a line 'anchor PREFIX SN SAID'"),
    (VCP + "evidence.anchor.seal Digest\n", "line 7: 'evidence.anchor.seal' needs a line 'evidence.anchor PREFIX SN SAID'"),
    (VCP + "evidence.id E:r\n", "line 7: 'evidence.id' does not belong to 'evidence Issuer'"),
    (VCP + "anchor D:i 0 E:k\n" + "anchor.seal Digest\n" * 9, "line 16: attempt vcp has at most 8 'anchor.seal'"),
    (VCP + "anchor D:i 0 E:k\nanchor.seal Event E:r 0\n", "line 8: anchor.seal: something is missing; the line should be 'anchor.seal Event I S D'"),
    (VCP + "anchor D:i 0 E:k\nanchor.seal Digest E:r\n", "line 8: anchor.seal: 'E:r' is too much"),
    (VCP + "anchor D:i 0 E:k\nanchor.seal event\n", "line 8: anchor.seal: 'event' is no kind of seal (did you mean 'Event'?); there are Digest, Root"),
    (VCP.replace("Issuer D:i", "Issuer"), "line 6: evidence: something is missing; the line should be 'evidence Issuer PREFIX'"),
    (VCP.replace("Issuer D:i", "Nothing"), "line 6: evidence: 'Nothing' is no evidence; there are Missing, Issuer, Backer, BackerAt"),
    (VCP.replace("Issuer D:i", "BackerAt"), "line 1: attempt vcp needs a line 'evidence.id SAID'"),
    (BIS + "evidence.anchor D:i 0 E:k\n", "line 7: 'evidence.anchor' does not belong to 'evidence Backer'"),
    (BIS.replace("  seal Event E:r 0 E:r\n", ""), "line 1: attempt bis needs a line 'seal KIND'"),
    (BIS + "toad 0\n", "line 7: attempt bis has no field 'toad'"),
    (BIS + VCP.replace("toad 1", "toad x"), "line 10: toad: 'x' is no toad"),
    (BIS.replace("E:s", "X:s") + "attempt vpc\n", "line 2: said: 'X:s': a said has the letter"),
    ("attempt raw\nbytes 0\n", "line 2: bytes: '0' is not hex digits, two for each byte"),
    ("attempt raw\nbytes 00 11\n", "line 2: bytes: '11' is too much; the line should be 'bytes HEX'"),
    ("attempt raw\nsaid E:r\n", "line 2: attempt raw has no field 'said'; it has bytes"),
    ("attempt raw\nbytes " + "00" * 65536, "line 1: an attempt has at most 65535 bytes, and this one 65536"),
    ("status\nsaid E:c\nissuer D:i\n", "line 1: status needs a line 'registry SAID|none|block'"),
    ("status\nsaid E:c\nissuer D:i\nregistry nothing\n", "line 4: registry: 'nothing' is no said"),
    ("status\nsaid E:c\nissuer D:i\nregistry none\nregistry-state.id E:r\n", "line 1: status needs a line 'registry-state.issuer PREFIX'"),
    ("status\nsaid E:c\nissuer D:i\nregistry none\ncredential-state.sn 0\n", "line 1: status needs a line 'credential-state.registry SAID'"),
    ("registry-state\nid E:r\n", "line 1: registry-state needs a line 'issuer PREFIX'"),
    ("credential-state\nregistry E:r\ntoad 0\n", "line 3: credential-state has no field 'toad'; it has registry, credential, sn, head"),
)


class Wrong(unittest.TestCase):
    def test_messages(self):
        for text, said in WRONG:
            with self.assertRaises(BadText, msg=text) as found:
                read_text(text)
            self.assertTrue(str(found.exception).startswith(said), f"{found.exception}\nand not\n{said}")
            count("broken texts")

    def test_nothing(self):
        for text in ("", "\n \n", "# said E:r\n"):
            self.assertEqual(read_text(text), [])

    def test_damaged(self):
        """Whatever a text is, it is told what is wrong with it, or it makes bytes that come back."""
        draw = random.Random(9)
        texts = [path.read_text() for path in SAMPLES] + [IMAGE]
        for _ in range(3000):
            lines = draw.choice(texts).splitlines()
            for _ in range(draw.randint(1, 3)):
                at = draw.randrange(len(lines))
                words = lines[at].split()
                how = draw.randrange(5)
                if how == 0:
                    lines[at : at + 1] = []
                elif how == 1:
                    lines.insert(draw.randrange(len(lines) + 1), lines[at])
                elif how == 2 and words:
                    words.pop(draw.randrange(len(words)))
                    lines[at] = " ".join(words)
                elif how == 3 and words:
                    words.append(draw.choice(words))
                    lines[at] = " ".join(words)
                elif words:
                    place = draw.randrange(len(lines[at]))
                    lines[at] = lines[at][:place] + chr(draw.choice([0, 9, 32, 35, 58, 69, 200, 0x2028])) + lines[at][place + 1 :]
                lines = lines or [""]
            try:
                blocks = read_text("\n".join(lines))
            except BadText as fault:
                self.assertLessEqual(fault.line, len(lines))
                count("damaged texts that are refused")
                continue
            for header, _, value in blocks:
                if header.startswith("attempt "):
                    self.assertEqual(read_text(text_of(value, Names()))[0][2], value)
            count("damaged texts that say something")
