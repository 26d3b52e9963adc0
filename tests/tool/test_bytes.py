"""The decoder against all that is recorded: what is malformed, and that what is not comes back as the same bytes."""

import random
import re
import unittest

from recorded import ROOT, count, decodes, folds, images, inputs

from jamfell.decode import cut_frames, decode_attempt, decode_credential, decode_image, decode_registry, decode_status
from jamfell.encode import encode_attempt, encode_credential, encode_image, encode_registry, encode_status, join_frames
from jamfell.faults import Malformed
from jamfell.rules import broken_rules


def read(decode, data):
    """The value, or None where the bytes are malformed. The place of the fault is one in the bytes, or their end."""
    try:
        return decode(data)
    except Malformed as fault:
        if not 0 <= fault.at <= len(data):
            raise AssertionError(f"a fault at byte {fault.at} of {len(data)}") from fault
        return None


def image_digest(data):
    """As crates/images/src/answer.rt has it."""
    digest = 0
    for byte in data:
        digest = (digest * 31 + byte + 1) % 4294967291
    return digest


class Recorded(unittest.TestCase):
    def test_decodes(self):
        """Each attempt has its mark, and the totals are those that the program prints."""
        total = malformed = 0
        for expected, data in decodes():
            value = read(decode_attempt, data)
            self.assertEqual(value is None, expected, data.hex())
            if value is not None:
                self.assertEqual(encode_attempt(value), data)
            total += 1
            malformed += value is None
        said = re.search(r"^total: (\d+) attempts, (\d+) malformed", (ROOT / "crates/decodes/stdout").read_text(), re.M)
        self.assertEqual((total, malformed), tuple(map(int, said.groups())))
        count("attempts of decodes", total)

    def test_folds(self):
        """1 comes first in every call, so it is expected exactly where the attempt, a state or the input of `status` is malformed."""
        registry, credential = (decode_registry, encode_registry), (decode_credential, encode_credential)
        attempt, status = (decode_attempt, encode_attempt), (decode_status, encode_status)
        of_call = {1: (attempt,), 2: (attempt, registry), 3: (attempt, registry), 4: (attempt, registry, credential), 5: (status,)}
        for call, report, (after, registry_part, credential_part, part) in folds():
            values = []
            for (decode, encode), data in zip(of_call[call], (part, registry_part, credential_part)):
                values.append(read(decode, data))
                if values[-1] is not None:
                    self.assertEqual(encode(values[-1]), data)
            self.assertEqual(None in values, report[0] == 1)
            if after:
                self.assertIsNotNone(read(decode_registry if call <= 2 else decode_credential, after))
            count("cases of folds")

    def test_images(self):
        """An image is refused where its record says so. Else it is what is held, and comes back as the same bytes."""
        for expected, image in images():
            found = read(decode_image, image)
            sound = found is not None and not list(broken_rules(found[0]))
            self.assertEqual(sound, expected[0] == 0)
            if sound:
                ledger, again = found[0], encode_image(found[0])
                self.assertEqual(again, image)
                held = (len(ledger.registries), len(ledger.credentials), len(again), image_digest(again))
                places = ((1, 2), (2, 4), (4, 6), (6, 10))
                self.assertEqual(held, tuple(int.from_bytes(expected[a:b], "big") for a, b in places))
            count("images")

    def test_inputs(self):
        """An input is broken where the program says so, and an attempt malformed where it answers 1."""
        for path, data, lines in inputs():
            frames, fault = cut_frames(data)
            self.assertEqual(fault is not None, lines[-1] == "broken", path)
            self.assertEqual(len(frames), len(lines) - 1, path)
            for (_, attempt), line in zip(frames, lines):
                self.assertEqual(read(decode_attempt, attempt) is None, line.split()[1] == "1", path)
            if fault is None:
                self.assertEqual(join_frames([attempt for _, attempt in frames]), data)
            count("inputs of the printed program")


class Damaged(unittest.TestCase):
    def damage(self, draw, data):
        data = bytearray(data)
        for _ in range(draw.randint(1, 3)):
            at = draw.randrange(len(data) + 1)
            how = draw.randrange(4)
            if how == 0:
                data[at:] = b""
            elif how == 1:
                data[at:at] = bytes([draw.randrange(256)])
            elif how == 2:
                data[at : at + 1] = b""
            elif at < len(data):
                data[at] = draw.choice([0, 1, 2, 3, 66, 69, draw.randrange(256)])
        return bytes(data)

    def test_no_other_end(self):
        """Whatever the bytes are, they are malformed or they come back as they were."""
        draw = random.Random(7)
        attempts = [data for expected, data in decodes() if not expected and len(data) < 2000]
        states = [(parts, call) for call, _, parts in folds()]
        for _ in range(4000):
            pairs = [(decode_attempt, encode_attempt, draw.choice(attempts))]
            parts, call = draw.choice(states)
            pairs += [(decode_registry, encode_registry, parts[1]), (decode_credential, encode_credential, parts[2])]
            pairs += [(decode_status, encode_status, parts[3])] if call == 5 else []
            for decode, encode, data in pairs:
                data = self.damage(draw, data)
                value = read(decode, data)
                if value is not None:
                    self.assertEqual(encode(value), data)
                count("damaged bytes")

    def test_images(self):
        draw = random.Random(8)
        sound = [image for expected, image in images() if expected[0] == 0 and len(image) < 2000]
        for _ in range(2000):
            data = self.damage(draw, draw.choice(sound))
            found = read(decode_image, data)
            if found is not None:
                list(broken_rules(found[0]))
                self.assertEqual(encode_image(found[0]), data)
            count("damaged bytes")
