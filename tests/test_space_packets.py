"""Space packets, read by a parser that is written from the field table of CCSDS 133.0-B alone: exported packets by the thousand, and damaged
ones, against the refusals of a model."""
import os
import random
import struct
import sys
import unittest

from c_program import DIST, TOP

os.environ.pop("DFB_LIB", None)
sys.path.insert(0, DIST)
sys.path.insert(0, os.path.join(TOP, "tools", "cases"))

import dfb  # noqa: E402
import space_packets_model  # noqa: E402

# CCSDS 133.0-B, 4.1.3: the fields of the primary header in their order, and the bits of each, the most significant first.
PRIMARY_HEADER = (
    ("packet version number", 3),
    ("packet type", 1),
    ("secondary header flag", 1),
    ("application process identifier", 11),
    ("sequence flags", 2),
    ("packet sequence count", 14),
    ("packet data length", 16),
)
# The samples of a set: 01, "Words and sets", and of 0x47 as 02, ticket 2, says.
SETS = {0x43: 3, 0x44: 7, 0x45: 3, 0x46: 3, 0x47: 7, 0x48: 3}
# Document 004: a packet has at most 4 Kbytes.
LIMIT = 4096


def parse(data, at):
    """The packet at a place: its fields by name, and its data, which are one byte more than the packet data length says."""
    bits = "".join("{:08b}".format(byte) for byte in data[at:at + 6])
    field, place = {}, 0
    for name, width in PRIMARY_HEADER:
        field[name] = int(bits[place:place + width], 2)
        place += width
    assert place == len(bits) == 48
    length = field["packet data length"] + 1
    assert at + 6 + length <= len(data)
    return field, data[at + 6:at + 6 + length]


def random_samples(r, count):
    return list(struct.unpack(">%dh" % count, r.randbytes(2 * count)))


class Exports(unittest.TestCase):
    def setUp(self):
        self.packets = 0

    def check(self, apid, first, samples):
        """What an export writes is what the standard and the ticket say, and each packet is imported as it was."""
        data, following = dfb.export_packets(apid, first, samples)
        set_bytes, at, taken, count = 2 * SETS[apid], 0, [], first
        while at < len(data):
            field, contents = parse(data, at)
            whole = data[at:at + 6 + len(contents)]
            at += len(whole)
            self.assertEqual(field, {
                "packet version number": 0,
                "packet type": 0,
                "secondary header flag": 0,
                "application process identifier": apid,
                "sequence flags": 3,
                "packet sequence count": count,
                "packet data length": len(contents) - 1,
            })
            self.assertEqual(len(contents) % set_bytes, 0)
            self.assertLessEqual(len(whole), LIMIT)
            if at < len(data):
                self.assertGreater(len(whole) + set_bytes, LIMIT)
            own = list(struct.unpack(">%dh" % (len(contents) // 2), contents))
            self.assertEqual(dfb.import_packet(whole), (apid, count, own))
            self.assertEqual(dfb.packet_bytes(data[at - len(whole):]), len(whole))
            taken += own
            count = 0 if count == 16383 else count + 1
            self.packets += 1
        self.assertEqual(at, len(data))
        self.assertEqual((taken, following), (samples, count))
        return following

    def test_chain(self):
        """Exports one after the other, each with the count that the last one gave: over 16,384 packets of all APIDs, so that every count comes."""
        r = random.Random(133)
        count, seen = 16000, set()
        while self.packets < 16800:
            apid = r.choice(list(SETS))
            before = self.packets
            following = self.check(apid, count, random_samples(r, SETS[apid] * r.randrange(1, 4)))
            seen |= {(count + n) % 16384 for n in range(self.packets - before)}
            count = following
        self.assertEqual(seen, set(range(16384)))

    def test_many_packets(self):
        """Up to 41 packets in one export, full ones and last ones of every kind, with counts that go over 16383."""
        r = random.Random(4)
        for apid, words in SETS.items():
            full = (LIMIT - 6) // (2 * words)
            for sets in (1, 2, full - 1, full, full + 1, 2 * full - 1, 2 * full, 2 * full + 1, 5 * full, r.randrange(full, 9 * full), 40 * full + 1):
                for first in (0, 16383, r.randrange(16350, 16384)):
                    self.check(apid, first, random_samples(r, words * sets))
        self.assertGreater(self.packets, 1000)

    def test_every_sample(self):
        """All 65,536 samples, in sets of three and of seven."""
        samples = list(range(-32768, 32768))
        self.check(0x43, 16370, samples + [0, 0])
        self.check(0x44, 16370, samples + [0] * 5)


class Damaged(unittest.TestCase):
    def setUp(self):
        self.numbers = set()

    def compare(self, data):
        """The call answers what the model answers, or is refused by its number."""
        try:
            expected = space_packets_model.import_packet(data)
        except space_packets_model.Refused as refused:
            with self.assertRaises(dfb.Refused) as caught:
                dfb.import_packet(data)
            self.assertEqual((caught.exception.number, caught.exception.offset), (refused.number, None))
            self.numbers.add(refused.number)
        else:
            self.assertEqual(dfb.import_packet(data), expected)
            self.numbers.add(None)

    def exported(self, r, sets):
        apid = r.choice(list(SETS))
        return dfb.export_packets(apid, r.randrange(16384), random_samples(r, SETS[apid] * sets))[0]

    def test_every_bit_of_the_header(self):
        """Each bit, and each two bits, of the header turned."""
        r = random.Random(1)
        for sets in (1, 2, 292):
            packet = self.exported(r, sets)
            number = int.from_bytes(packet[:6], "big")
            for first in range(48):
                for second in range(first, 48) if sets == 1 else [first]:
                    self.compare((number ^ (1 << first | 1 << second)).to_bytes(6, "big") + packet[6:])
        self.assertEqual(self.numbers, {None, 4, 22, 23})

    def test_every_apid(self):
        """All of the 11 bits: 0x143 and 0x443 too, whose low byte is that of a waveform."""
        for apid in range(2048):
            self.compare(apid.to_bytes(2, "big") + bytes.fromhex("C000 0029") + bytes(42))
        self.assertEqual(self.numbers, {None, 4})

    def test_cut_and_longer(self):
        r = random.Random(2)
        for sets in (1, 2, 6):
            packet = self.exported(r, sets)
            for length in range(len(packet)):
                self.compare(packet[:length])
            for more in (1, 2, 6, 14, 42, 250, 4096):
                self.compare(packet + r.randbytes(more))
            self.compare(packet + packet)
        self.assertEqual(self.numbers, {23})

    def test_length_field(self):
        """Every length field over no data and over 42 bytes of data; and data of every length with the length field right."""
        for apid in (0x43, 0x44):
            start = struct.pack(">HH", apid, 0xC000)
            for length in range(0, 65536, 1 if apid == 0x43 else 37):
                self.compare(start + length.to_bytes(2, "big"))
                self.compare(start + length.to_bytes(2, "big") + bytes(42))
            self.compare(start + b"\xFF\xFF")
            for length in [*range(1, 90), *range(4060, 4130), 4200, 8192, 65535, 65536]:
                self.compare(start + (length - 1).to_bytes(2, "big") + bytes(length))
        self.assertEqual(self.numbers, {None, 23})

    def test_random(self):
        r = random.Random(3)
        for _ in range(4000):
            packet = self.exported(r, r.choice([1, 2, r.randrange(1, 20)]))
            self.compare(space_packets_model.damaged(r, packet))
            self.compare(r.randbytes(r.randrange(20)))
        self.assertEqual(self.numbers, {None, 4, 22, 23})


if __name__ == "__main__":
    unittest.main()
