"""Tests of the Python module, dist/dfb.py over libdfb.so."""
import os
import random
import subprocess
import sys
import unittest

from c_program import DIST, TOP

os.environ.pop("DFB_LIB", None)
sys.path.insert(0, DIST)
sys.path.insert(0, os.path.join(TOP, "tools", "cases"))

import dfb  # noqa: E402
import counts_model  # noqa: E402
import snapshot_model  # noqa: E402
import space_packets_model  # noqa: E402
import sums_model  # noqa: E402
from checklist_model import Bad, check, command, mark, random_list  # noqa: E402
from listing_model import Listing, random_log, walk as listing_walk  # noqa: E402

EXAMPLE = """\
stored 0x1120
report 1 has 18 words
band 0 starts at 0 Hz, has its centre at 4 Hz and is 8 Hz wide
DFB LOG 1
C 30 1120
T
T
P 1 00 36%s
END 21
refusal 1: the command ID is outside 0x30 to 0x36
""" % (36 * " 10")


class Items(Listing):
    """The items of a log: kind, offset, bytes, a and b."""

    def __init__(self):
        super().__init__()
        self.items, self.at = [], 0

    def take(self, kind, body):
        at, self.at = self.at, self.at + 1 + len(body)
        super().take(kind, body)
        if kind == 1:
            self.items.append((1, at, 4, body[0], self.registers[body[0] - 0x30]))
        elif kind == 3:
            self.items.append((3, at, 5, int.from_bytes(body, "big"), 0))
        elif kind == 4:
            self.items.append((4, at, 1, 0, 0))

    def finish(self):
        words = len(self.words)
        self.items.append((2, self.at - 4 * words, 4 * words, self.apid, words))
        super().finish()


class Python(unittest.TestCase):
    def refused(self, number, function, *arguments, offset=None):
        with self.assertRaises(dfb.Refused) as caught:
            function(*arguments)
        self.assertEqual((caught.exception.number, caught.exception.offset), (number, offset))

    def test_example(self):
        done = subprocess.run([sys.executable, os.path.join(DIST, "dfb.py")], capture_output=True, check=True)
        self.assertEqual(done.stdout.decode(), EXAMPLE)

    def test_board(self):
        board = dfb.Board()
        self.assertEqual(board.tick([0] * dfb.POWERS), "idle")
        self.assertEqual(board.command(0x30, 0xFFFF), 0x6363)
        self.assertEqual(board.read(0x30), 0x6363)
        self.assertEqual(board.command(0x30, 0x1020), 0x1020)
        self.assertEqual(board.tick([9] * dfb.POWERS), dfb.Report(bytes([0x4E, 0x0D, 0x0D]) * 18, 1))
        self.assertEqual(board.tick([9] * dfb.POWERS), "waiting")
        self.assertEqual(board.tick([9] * dfb.POWERS).number, 2)
        self.assertEqual(board.command(0x30, 0x1120), 0x1120)
        self.assertEqual(board.tick([9] * dfb.POWERS), "collected")
        for number in range(7):
            board.command(0x30 + number, 0x00A0)
        report = board.tick([9] * dfb.POWERS)
        self.assertEqual((report.words, report.number), (bytes([0x4E, 0x0D, 0x0D]) * 392, 1))
        self.refused(2, board.tick, [0])
        self.refused(1, board.read, 0x37)
        board.state[7] = 9
        self.refused(3, board.command, 0x30, 0)

    def test_report_numbers(self):
        board = dfb.Board()
        board.command(0x30, 0x0020)
        powers = [0] * dfb.POWERS
        self.assertEqual([board.tick(powers).number for _ in range(3)], [1, 2, 3])
        self.refused(1, board.command, 0x37, 0x0020)
        self.assertEqual(board.tick(powers).number, 4)
        board.state[8] = 65533
        self.assertEqual([board.tick(powers).number for _ in range(3)], [65534, 65535, 65535])
        self.assertEqual(board.command(0x30, 0x0020), 0x0020)
        self.assertEqual(board.tick(powers).number, 1)
        board.command(0x30, 0)
        self.assertEqual((board.tick(powers), board.state[8]), ("idle", 0))
        board.state[8] = 1
        self.refused(3, board.tick, powers)
        self.refused(3, board.command, 0x30, 0x0020)
        self.assertEqual((board.state[8], board.read(0x30)), (1, 0))

    def test_sets(self):
        samples = [1, -1, -32768]
        self.assertEqual(dfb.pack(0x43, samples), bytes.fromhex("430001 43FFFF 438000"))
        self.assertEqual(dfb.unpack(0x43, dfb.pack(0x43, samples)), samples)
        self.refused(4, dfb.pack, 0x4E, samples)
        self.refused(2, dfb.pack, 0x44, samples)
        self.refused(5, dfb.unpack, 0x43, bytes.fromhex("430001 44FFFF 438000"))

    def test_log(self):
        log = bytearray(5)
        self.assertEqual(dfb.append(log, 0, dfb.TICK), 1)
        self.assertEqual(dfb.append(log, 1, dfb.WORD, 0x43, 0xABCD), 5)
        self.assertEqual(log, bytes.fromhex("04 0243ABCD"))
        self.refused(2, dfb.append, log, 5, dfb.TICK)
        self.refused(9, dfb.append, log, 0, 5)
        self.assertEqual(dfb.append(bytearray(4), 0, dfb.COMMAND, 0x30), 4)
        written = bytearray(b"\xFF" * 5)
        self.assertEqual((dfb.append(written, 0, dfb.COMMAND, 0x30), written), (4, bytes.fromhex("01300000FF")))
        try:
            dfb.append(log, 5, dfb.TICK)
        except dfb.Refused as refused:
            kept = refused  # its traceback holds no part of the log
        log += b"\x04"
        self.assertEqual(kept.number, 2)
        self.assertEqual(dfb.listing(log), "DFB LOG 1\nT\nBAD 5 5\n")
        self.assertEqual(dfb.listing(b""), "DFB LOG 1\nEND 0\n")

    def test_records(self):
        log = bytes.fromhex("013000E3 02430001 0389ABCDEF 04")
        expected = [(0, dfb.COMMAND, 0x30, 0xE3), (4, dfb.WORD, 0x43, 1), (8, dfb.SECOND_MARK, 0, 0x89ABCDEF), (13, dfb.TICK, 0, 0)]
        self.assertEqual(list(dfb.records(log)), expected)
        self.assertEqual(dfb.read_record(log, 4), (8, dfb.WORD, 0x43, 1))
        self.assertEqual(dfb.read_record(log, 14), (14, dfb.END, 0, 0))
        self.assertEqual(dfb.read_record(b"\x04" * 70000, 69999), (70000, dfb.TICK, 0, 0))
        self.assertEqual(list(dfb.records(b"")), [])
        written, used = bytearray(len(log)), 0
        for _, kind, a, b in expected:
            used = dfb.append(written, used, kind, a, b)
        self.assertEqual(written, log)
        self.refused(2, dfb.read_record, log, 15)
        self.refused(9, dfb.read_record, log, 2)
        self.refused(10, dfb.read_record, log[:3], 0)
        self.refused(10, list, dfb.records(log[:12]))
        self.refused(1, dfb.read_record, b"\x01\x37\0\0", 0)
        self.refused(4, dfb.read_record, b"\x02\x42\0\0", 0)

    def test_check_commands(self):
        plan = mark(7) + command(0x30, 0x3223) + mark(7) + command(0x33, 0x0032) + mark(8)
        self.assertEqual(dfb.check_commands(plan), (0x3223, 0, 0, 0x0032, 0, 0, 0))
        self.assertEqual(dfb.check_commands(b""), (0,) * dfb.REGISTERS)
        self.assertEqual(dfb.check_commands(bytearray(command(0x36, 0x0036) * 70000)), (0, 0, 0, 0, 0, 0, 0x0036))
        self.refused(9, dfb.check_commands, b"\x05", offset=0)
        self.refused(10, dfb.check_commands, plan[:-1], offset=18)
        self.refused(18, dfb.check_commands, plan + b"\x04", offset=23)
        self.refused(1, dfb.check_commands, command(0x37, 0xFFFF), offset=0)
        self.refused(20, dfb.check_commands, plan + command(0x31, 0xFFFF), offset=23)
        self.refused(19, dfb.check_commands, plan + mark(7), offset=23)
        self.refused(21, dfb.check_commands, command(0x30, 0x0120) + plan, offset=4)
        self.refused(21, dfb.check_commands, plan + command(0x30, 0x0120), offset=27)
        self.refused(18, dfb.check_commands, command(0x36, 0x0036) * 70000 + b"\x04", offset=280000)

    def test_check_of_random_lists(self):
        r = random.Random(3)
        for _ in range(2000):
            log = random_list(r)
            try:
                expected = check(log)
            except Bad as bad:
                self.refused(bad.refusal, dfb.check_commands, log, offset=bad.offset)
            else:
                self.assertEqual(dfb.check_commands(log), tuple(expected))

    def test_walk(self):
        log = bytes.fromhex("0131001F 0300000102 04 02430001 0243FFFF 02438000 01300020") + b"\x02\x4E\x0C\x0D" * 18
        expected = [(dfb.COMMAND, 0, 4, 0x31, 0x12), (dfb.SECOND_MARK, 4, 5, 258, 0), (dfb.TICK, 9, 1, 0, 0), (dfb.SET, 10, 12, 0x43, 3),
                    (dfb.COMMAND, 22, 4, 0x30, 0x20), (dfb.SET, 26, 72, 0x4E, 18)]
        self.assertEqual(list(dfb.walk(log)), expected)
        self.assertEqual(list(dfb.walk(b"")), [])
        walk, items = (0,) * dfb.WALK, []
        for _ in range(6):
            item, walk = dfb.walk_next(log, walk)
            items.append(item)
        self.assertEqual(items, expected)
        last = (98, 25, 0x20, 0x12, 0, 0, 0, 0, 0)
        self.assertEqual((walk, dfb.walk_next(log, walk)), (last, ((dfb.END, 98, 0, 25, 0), last)))
        self.assertEqual(items[3].offset + items[3].bytes, items[4].offset)
        self.assertEqual((items[0].a, items[0].b, items[0].kind), (0x31, 0x12, dfb.COMMAND))
        found, cut = [], dfb.walk(log[:-4])
        with self.assertRaises(dfb.Refused) as caught:
            found.extend(cut)
        self.assertEqual((caught.exception.number, caught.exception.offset, list(cut)), (5, 94, []))
        self.refused(9, dfb.walk_next, b"\x05", [0] * 9, offset=0)
        self.refused(2, dfb.walk_next, b"\x04", [0] * 8, offset=0)
        self.refused(2, dfb.walk_next, b"\x04", [2**55] + [0] * 8, offset=0)
        self.refused(2, dfb.walk_next, b"\x04", [2, 3] + [0] * 7, offset=2)
        self.refused(3, dfb.walk_next, b"\x04", [1, 2] + [0] * 7, offset=1)
        self.refused(3, dfb.walk_next, b"\x04", [0] * 8 + [0x10000], offset=0)

    def test_walk_of_random_logs(self):
        r = random.Random(14)
        for _ in range(2000):
            log, model = random_log(r), Items()
            try:
                listing_walk(model, log)
            except Bad as bad:
                items = dfb.walk(log)
                self.assertEqual([next(items) for _ in model.items], model.items)
                self.refused(bad.refusal, next, items, offset=bad.offset)
            else:
                self.assertEqual(list(dfb.walk(log)), model.items)

    def test_counted_log(self):
        memory = bytearray(b"\xEE" * 120)
        log = dfb.CountedLog(memory)
        self.assertEqual((log.used, log.counts, log.registers), (0, (0,) * dfb.COUNTS, (0,) * dfb.REGISTERS))
        self.refused(6, log.report, bytes(54))
        self.assertEqual([log.command(0x30, 0xFFE0), log.mark(7), log.tick()], [4, 9, 10])
        self.assertEqual(log.set(0x45, [1, -1, -32768]), 22)
        self.refused(5, log.report, b"\x4E\0\0" * 18)
        self.assertEqual(log.command(0x30, 0x0020), 26)
        self.assertEqual(log.report(b"\x4E\x0C\x0D" * 18), 98)
        before = bytes(memory)
        self.refused(1, log.command, 0x37, 0)
        self.refused(4, log.set, 0x4E, [0, 0, 0])
        self.refused(5, log.set, 0x44, [0] * 6)
        self.refused(5, log.report, b"\x4E\x0C\x08" * 17)
        self.refused(7, log.report, b"\x4E\x0C\x08" * 18)
        self.refused(2, log.set, 0x44, [0] * 7)
        self.assertEqual((bytes(memory), log.used), (before, 98))
        written = bytes.fromhex("0130FFE0 0300000007 04 02450001 0245FFFF 02458000 01300020") + b"\x02\x4E\x0C\x0D" * 18
        self.assertEqual(memory, written + b"\xEE" * 22)
        self.assertEqual((log.counts, log.registers), ((0, 0, 1, 0, 0, 0, 1), (0x0020, 0, 0, 0, 0, 0, 0)))
        self.assertEqual(dfb.count_sets(memory[: log.used]), (log.counts, log.registers))
        places = [0x43, 0x44, 0x45, 0x46, 0x47, 0x48, 0x4E]
        self.assertEqual([log.count(apid) for apid in places], list(log.counts))
        self.assertEqual({log.count(apid) for apid in range(256) if apid not in places}, {None})
        try:
            log.set(0x44, [0] * 7)
        except dfb.Refused as refused:
            kept = refused  # its traceback holds no part of the log
        memory += bytes(100)
        self.assertEqual((kept.number, log.set(0x44, [0] * 7)), (2, 126))
        log.used = 2**64 - 1
        self.refused(2, log.tick)
        log.used = 0  # less than a count
        self.refused(3, log.tick)

    def test_opened_log(self):
        written = bytes.fromhex("01310032 02430001 0243FFFF 02438000 04")
        log = dfb.CountedLog.open(bytearray(written + bytes(80)), len(written))
        self.assertEqual((log.used, log.counts, log.registers), (17, (1, 0, 0, 0, 0, 0, 0), (0, 0x0032, 0, 0, 0, 0, 0)))
        self.assertEqual((log.report(b"\x4E\0\0" * 18), log.count(0x4E)), (89, 1))
        self.refused(5, dfb.CountedLog.open, bytearray(written), 12, offset=12)
        self.refused(2, dfb.CountedLog.open, bytearray(written), 18, offset=0)
        self.assertEqual(dfb.CountedLog.open(bytearray(), 0).used, 0)

    def test_count_sets(self):
        self.assertEqual(dfb.count_sets(b""), dfb.Tally((0,) * dfb.COUNTS, (0,) * dfb.REGISTERS))
        sets = bytes.fromhex("02430001 02430002 02430003") * 10000
        self.assertEqual(dfb.count_sets(sets).counts, (10000, 0, 0, 0, 0, 0, 0))
        self.refused(5, dfb.count_sets, sets[:-4], offset=119996)
        self.refused(9, dfb.count_sets, sets + b"\0", offset=120000)
        r = random.Random(12)
        for _ in range(2000):
            log = random_log(r)
            try:
                expected = counts_model.count_sets(log)
            except Bad as bad:
                self.refused(bad.refusal, dfb.count_sets, log, offset=bad.offset)
            else:
                self.assertEqual(dfb.count_sets(log), tuple(map(tuple, expected)))

    def test_random_histories(self):
        r = random.Random(13)
        for _ in range(300):
            memory = bytearray(r.randbytes(r.choice([0, 30, 200, 2000])))
            log, model = dfb.CountedLog(memory), counts_model.CountedLog(bytearray(memory))
            for _ in range(20):
                name, arguments = counts_model.random_call(r, model)
                try:
                    getattr(model, name)(*arguments)
                except counts_model.Refused as refused:
                    self.refused(refused.number, getattr(log, name), *arguments)
                else:
                    self.assertEqual(getattr(log, name)(*arguments), model.used)
                self.assertEqual((memory, log.used), (model.log, model.used))
                self.assertEqual((log.counts, log.registers), (tuple(model.counts), tuple(model.registers)))
                self.assertEqual(dfb.count_sets(memory[: log.used]), (log.counts, log.registers))

    def test_cadence(self):
        values = [dfb.cadence_of(choice) for choice in range(11)]
        self.assertEqual(values[:4], [("rate", 8.0), ("rate", 4.0), ("rate", 2.0), ("rate", 1.0)])
        self.assertEqual(values[4:], [("period", 2.0**n) for n in range(1, 8)])
        self.refused(12, dfb.cadence_of, 11)

    def test_refusals(self):
        with self.assertRaises(dfb.Refused) as caught:
            dfb.BurstSlots(1).choose()
        self.assertEqual(str(caught.exception), "refusal 26: nothing is held to send, or no criterion is above 0")
        self.assertEqual((dfb.Refused(26).number, dfb.Refused(26).offset), (26, None))
        with self.assertRaises(dfb.Refused) as caught:
            dfb.check_commands(b"\x04")
        self.assertEqual(str(caught.exception), "refusal 18: the record is neither a command nor a second mark, at offset 0")

    def test_codes_and_bands(self):
        self.assertEqual((dfb.compress_band(15), dfb.expand_band(0x0F)), (0x14, 14))
        self.assertEqual((dfb.compress_band(2**32 - 1), dfb.expand_band(0xF4)), (0xF4, 2**32))
        self.assertEqual((dfb.compress_sum(2**64 - 1), dfb.expand_sum(0xFC01)), (0xDBFF, 2**63))
        self.assertEqual([dfb.band_of(setting, 1023) for setting in range(3)], [35, 63, 111])
        self.assertEqual((dfb.band_of(0, 512), dfb.describe_band(2, 111)), (32, (7936.0, 8064.0, 256.0)))
        self.refused(7, dfb.expand_band, 0x08)
        self.refused(7, dfb.expand_band, 0xF5)
        self.refused(8, dfb.expand_sum, 0xFC02)
        self.refused(12, dfb.band_of, 3, 0)
        self.refused(12, dfb.band_of, 2, 1024)
        self.refused(12, dfb.describe_band, 0, 36)

    def test_coarse_totals(self):
        fine = list(range(1, 113))
        self.assertEqual(dfb.coarse_totals(1, fine), fine[:16] + [a + b for a, b in zip(fine[16::2], fine[17::2])])
        pairs = [a + b for a, b in zip(fine[8:16:2], fine[9:16:2])]
        self.assertEqual(dfb.coarse_totals(0, fine), fine[:8] + pairs + [sum(fine[i : i + 4]) for i in range(16, 112, 4)])
        self.refused(24, dfb.coarse_totals, 1, [dfb.MOST_TOTAL + 1] + [0] * 111)
        self.refused(2, dfb.coarse_totals, 1, [2**64 - 1] * 111)
        self.refused(2, dfb.coarse_totals, 0, [0] * 113)
        self.refused(12, dfb.coarse_totals, 2, [])
        self.assertEqual(dfb.coarse_totals(1, [dfb.MOST_TOTAL] * 112), [dfb.MOST_TOTAL] * 16 + [2 * dfb.MOST_TOTAL] * 48)

    def test_coarse_totals_of_a_board(self):
        board, powers = dfb.Board(), [3 * k + 1 for k in range(1024)] * 7
        board.command(0x32, 0x0020)
        board.command(0x30, 0x1180)
        self.assertEqual(board.tick(powers), "collected")
        expected = [0] * 36
        for k in range(1024):
            expected[dfb.band_of(0, k)] += 3 * k + 1
        self.assertEqual(dfb.coarse_totals(0, board.totals[224:336]), expected)

    def test_totals_and_printed_values(self):
        """The handbook's example: 8 in bin 8 and 9 in bin 9. The printed values of 112 bands do not add up to what 36 bands print."""
        powers = [8 if k == 8 else 9 if k == 9 else 0 for k in range(1024)] + [0] * 6144
        printed, totals = {}, {}
        for setting in (0, 2):
            board = dfb.Board()
            board.command(0x30, 0x1120 | setting << 6)  # N = 2: the totals of the first spectrum
            self.assertEqual(board.tick(powers), "collected")
            totals[setting] = board.totals[:112]
            board.command(0x30, 0x0020 | setting << 6)  # N = 1
            words = board.tick(powers).words
            codes = [code for at in range(0, len(words), 3) for code in (words[at + 2], words[at + 1])]
            printed[setting] = [dfb.expand_band(code) for code in codes]
        self.assertEqual((totals[2][8:10], printed[2][8:10]), ([8, 9], [8, 10]))
        self.assertEqual((dfb.coarse_totals(0, totals[2])[8], totals[0][8], printed[0][8]), (17, 17, 8))
        from_printed = dfb.coarse_totals(0, printed[2])[8]
        self.assertEqual((from_printed, dfb.expand_band(dfb.compress_band(from_printed // 2))), (18, 10))

    def test_bursts(self):
        slots = dfb.BurstSlots(2)
        self.refused(26, slots.choose)
        self.refused(28, slots.finish)
        self.assertEqual([slots.offer(criterion) for criterion in (5, 9, 7, 7)], [(0, 1), (1, 2), (0, 2), (None, 2)])
        self.assertEqual((list(slots.status), list(slots.criteria)), ([dfb.HELD, dfb.HELD], [7, 9]))
        self.assertEqual(slots.choose(), 1)
        self.refused(27, slots.choose)
        self.assertEqual((list(slots.status), list(slots.criteria)), ([dfb.HELD, dfb.SENDING], [7, 0]))
        self.assertEqual((slots.finish(), list(slots.status)), (1, [dfb.HELD, dfb.FREE]))
        many = dfb.BurstSlots(32)
        self.assertEqual([many.offer(1) for _ in range(33)], [(slot, slot + 1) for slot in range(32)] + [(None, 32)])
        slots.status[0] = 3
        self.refused(3, slots.offer, 1)
        self.refused(3, dfb.BurstSlots(33).choose)

    def test_interval(self):
        self.assertEqual(dfb.choose_interval([1, 5, 9, 9, 2], 4, 10), (1, 3))
        self.assertEqual(dfb.choose_interval([1, 5, 9, 9, 2], 4, 2), (1, 2))
        self.assertEqual(dfb.choose_interval([2**32 - 1] * 3, 2**32 - 1, 2**32 - 1), (0, 2))
        self.assertEqual(dfb.choose_interval([0] * 15998 + [5, 5], 0, 9), (15998, 15999))
        self.refused(2, dfb.choose_interval, [1] * 16001, 0, 1)
        self.refused(29, dfb.choose_interval, [1], 0, 0)
        self.refused(26, dfb.choose_interval, [0, 0], 0, 1)

    def test_snapshots(self):
        header = dfb.SnapshotHeader(0x0102, 0x0304, 0x0506, 0x0708090A, 0x0B, 0, 3072, 0x0D, 0x0E, 3071)
        packet = bytes.fromhex("21 0102 0304 0506 08 0708090A 0B 00 0C00 0D 0E 0BFF")
        self.assertEqual(dfb.snapshot_write(header, []), packet)
        self.assertEqual(dfb.snapshot_read(packet), dfb.Snapshot(header, []))
        self.assertEqual(dfb.snapshot_read(bytearray(packet)).header.packet_number, 3071)
        samples = [1, -1, -32768, 32767] * 256
        full = header._replace(component_mask=0xFF)
        written = dfb.snapshot_write(tuple(full), samples)
        self.assertEqual(written, packet[:13] + b"\xFF" + packet[14:] + bytes.fromhex("0001 FFFF 8000 7FFF") * 256)
        self.assertEqual(dfb.snapshot_read(written), (full, samples))
        self.assertEqual((len(written), len(samples)), (dfb.MOST_SNAPSHOT_BYTES, dfb.MOST_SNAPSHOT_SAMPLES))

        self.refused(16, dfb.snapshot_read, packet[:19])
        self.refused(16, dfb.snapshot_read, b"")
        self.refused(14, dfb.snapshot_read, b"\x22" + packet[1:])
        self.refused(14, dfb.snapshot_read, packet[:7] + b"\0" + packet[8:])
        self.refused(15, dfb.snapshot_read, packet[:15] + b"\1" + packet[16:])  # a total of 3073
        self.refused(15, dfb.snapshot_read, packet[:18] + b"\x0C\0")
        self.refused(16, dfb.snapshot_read, packet + b"\0")
        self.refused(16, dfb.snapshot_read, written[:-1])
        self.refused(15, dfb.snapshot_write, header._replace(total_packets=3073), [])
        self.refused(15, dfb.snapshot_write, header._replace(packet_number=3072), [0])
        self.refused(15, dfb.snapshot_write, header._replace(total_packets=0, packet_number=0), [])
        self.refused(16, dfb.snapshot_write, header, [0])
        self.refused(16, dfb.snapshot_write, full, samples[1:])
        self.refused(16, dfb.snapshot_write, full, samples + [0])
        # 2: not ten numbers, or one that does not fit its field
        self.refused(2, dfb.snapshot_write, header[:9], [])
        self.refused(2, dfb.snapshot_write, header + (0,), [])
        self.refused(2, dfb.snapshot_write, (), [])
        for place, bits in enumerate((16, 16, 16, 32, 8, 8, 16, 8, 8, 16)):
            if bits < 32:
                self.refused(2, dfb.snapshot_write, header[:place] + (2**bits,) + header[place + 1:], [])

    def test_random_snapshots(self):
        r = random.Random(14)
        for _ in range(1500):
            packet = snapshot_model.random_packet(r)
            for data in (packet, snapshot_model.damaged(r, packet)):
                try:
                    expected = snapshot_model.read(data)
                except snapshot_model.Refused as refused:
                    self.refused(refused.number, dfb.snapshot_read, data)
                else:
                    self.assertEqual(dfb.snapshot_read(data), expected)
            header, samples = snapshot_model.random_write(r)
            if r.random() < 0.1:
                place = r.randrange(len(header))
                header = header[:place] + (r.randrange(2**32),) + header[place + 1:]
            try:
                expected = snapshot_model.write(header, samples)
            except snapshot_model.Refused as refused:
                self.refused(refused.number, dfb.snapshot_write, header, samples)
            else:
                self.assertEqual(dfb.snapshot_write(header, samples), expected)

    def test_sums(self):
        sums = dfb.Summed()
        self.assertEqual((sums.next_component, sums.masks, bytes(sums.state), bytes(sums.totals)), (0, (0, 0), bytes(3), bytes(8 * 2048)))
        pairs = [3, -4] * dfb.SUM_BINS
        for n in range(7):
            self.assertIsNone(sums.add(n, *((0x81, 0x02) if n == 0 else (0xFF, n)), pairs))
            self.assertEqual((sums.next_component, sums.masks), (n + 1, (0x81, 0x02)))
            self.assertEqual(list(sums.totals), [25] * 1024 + [25 if n > 0 else 0] * 1024)
        self.refused(17, sums.add, 0, 0x81, 0x02, pairs)
        self.refused(2, sums.add, 7, 0, 0, pairs[1:])
        self.assertEqual((list(sums.state), sums.totals[0]), ([7, 0x81, 0x02], 25))
        self.assertEqual(sums.add(7, 0, 0, pairs), dfb.Sums([50] * 1024, [25] * 1024))
        self.assertEqual((sums.next_component, sums.masks, bytes(sums.totals)), (0, (0x81, 0x02), bytes(8 * 2048)))
        # without masks neither sum has a component
        for n in range(8):
            answer = sums.add(n, 0, 0, pairs)
        self.assertEqual((answer, sums.masks), (([0] * 1024, [0] * 1024), (0, 0)))
        # the codes of 1023, 1024 and 1025, and of 2^31 and 2^34; the first bin and the last
        self.assertEqual(self.summed([[31, 7] + [0, 0] * 1022 + [32, 1], [3, 2] + [0, 0] * 1022 + [0, 0]] + [[9, 9] * 1024] * 6, 0x03, 0x01),
                         ([0x03FF] + [0] * 1022 + [0x0600], [1010] + [0] * 1022 + [0x0600]))
        self.assertEqual(self.summed([[-32768] * 2048] * 8, 0x08, 0xFF), ([0x5A00] * 1024, [0x6600] * 1024))
        self.assertEqual((dfb.expand_sum(0x5A00), dfb.expand_sum(0x6600)), (2**31, 2**34))
        # other pairs in each bin
        self.assertEqual(self.summed([range(2048), range(0, -2048, -1)] + [[0] * 2048] * 6, 0x02, 0x03).first[:4], [1, 13, 41, 85])

    def summed(self, components, first_mask, second_mask):
        sums = dfb.Summed()
        answers = [sums.add(n, first_mask, second_mask, pairs) for n, pairs in enumerate(components)]
        self.assertEqual(answers[:7], [None] * 7)
        return answers[7]

    def test_sums_refused(self):
        sums, pairs = dfb.Summed(), [1, 1] * dfb.SUM_BINS
        for n in range(8):
            for length in (0, 1, 1024, 2047, 2049, 4096):
                self.refused(2, sums.add, n, 255, 255, [0] * length)
            for other in set(range(256)) - {n}:
                self.refused(17, sums.add, other, 255, 255, pairs)
            self.refused(2, sums.add, 255, 255, 255, pairs[1:])
            self.assertEqual((sums.next_component, sums.masks, sums.totals[2047]), (n, (15, 240) if n else (0, 0), 2 * max(n - 4, 0)))
            answer = sums.add(n, 15, 240, pairs)
        self.assertEqual(answer, ([8] * 1024, [8] * 1024))
        # 3: the next component, and a total; first 2, then 3, then 17
        for place in (8, 9, 255):
            sums.state[0] = place
            self.refused(3, sums.add, place, 0, 0, pairs)
            self.refused(3, sums.add, 0, 0, 0, pairs)
            self.refused(2, sums.add, 0, 0, 0, pairs + [0])
        for place, most in ((0, (0, 0)), (1, (2**31, 0)), (4, (2**33, 0)), (5, (2**33, 2**31)), (7, (2**33, 3 * 2**31))):
            for at in (0, 1023, 1024, 2047):
                sums.state[:] = place, 15, 240
                sums.totals[at] = most[at // 1024] + 1
                self.refused(3, sums.add, place, 0, 0, pairs)
                self.refused(3, sums.add, 255, 0, 0, pairs)
                self.refused(2, sums.add, place, 0, 0, pairs[1:])
                self.assertEqual((list(sums.state), sums.totals[at]), ([place, 15, 240], most[at // 1024] + 1))
                sums.totals[at] = most[at // 1024]
                self.refused(17, sums.add, 255, 0, 0, pairs)
                self.assertEqual(sums.add(place, 0, 0, pairs) is None, place < 7)
                sums.totals[:] = [0] * 2048

    def sums_agree(self, sums, model, component, pairs, first, second):
        """One call does what the model says, which is given the same state and totals; the model's codes, or None where the call is refused."""
        try:
            state, totals, written = sums_model.sum_component(*model, component, first, second, pairs)
        except sums_model.Refused as refused:
            self.refused(refused.number, sums.add, component, first, second, pairs)
            (state, totals), codes = model, None
        else:
            codes = [int.from_bytes(written[at:at + 2], "big") for at in range(0, len(written), 2)]
            answer = sums.add(component, first, second, pairs)
            self.assertEqual(answer, (codes[:1024], codes[1024:]) if codes else None)
        self.assertEqual((tuple(sums.state), list(sums.totals)), (state, totals))
        return codes

    def test_random_sums(self):
        """Histories begun at component 0, with refused calls among them, against the model and the book."""
        r = random.Random(4)
        for _ in range(30):
            sums, book = dfb.Summed(), sums_model.Book()
            for _ in range(r.choice([8, 20, 40])):
                component, pairs = sums_model.random_component(r, sums.next_component), sums_model.random_pairs(r)
                first, second = sums_model.random_mask(r), sums_model.random_mask(r)
                if r.random() < 0.1:
                    pairs = r.choice([pairs[1:], pairs + [0], []])
                codes = self.sums_agree(sums, (tuple(sums.state), list(sums.totals)), component, pairs, first, second)
                try:
                    exact = book.take(component, first, second, pairs)
                except sums_model.Refused as refused:
                    self.assertIsNone(codes)
                    self.assertNotEqual(refused.number, 3)
                    continue
                self.assertEqual(sums.masks, book.masks)
                self.assertEqual(codes == [], exact is None)
                for code, total in zip(codes, exact[0] + exact[1] if exact else []):
                    value = dfb.expand_sum(code)
                    self.assertLessEqual(value, total)
                    if total < 1024:
                        self.assertEqual(value, total)
                    else:
                        self.assertLess(513 * (total - value), total)

    def test_sums_of_any_state(self):
        r, refusals = random.Random(5), set()
        for _ in range(300):
            sums = dfb.Summed()
            place = r.choice([0, 1, 2, 3, 4, 5, 6, 7, 7, 8, r.randrange(256)])
            masks = [sums_model.random_mask(r) for _ in range(2)]
            sums.state[:] = place, *masks
            for run, mask in enumerate(masks):
                most = 2**31 * sum(mask >> n & 1 for n in range(min(place, 8)))
                sums.totals[1024 * run : 1024 * run + 1024] = r.choices([0, most, r.randrange(most + 1)], k=1024)
                if r.random() < 0.2:
                    sums.totals[1024 * run + r.randrange(1024)] = r.choice([most + 1, 2**63 + most, 2**64 - 1, most])
            component, pairs = sums_model.random_component(r, place), sums_model.random_pairs(r)
            if r.random() < 0.1:
                pairs = pairs[1:]
            given = tuple(sums.state), list(sums.totals)
            refusals.add(self.sums_agree(sums, given, component, pairs, *(sums_model.random_mask(r) for _ in range(2))) is None)
        self.assertEqual(refusals, {False, True})

    def test_space_packets(self):
        one = bytes.fromhex("0043 C000 0005 0001 FFFF 8000")
        self.assertEqual(dfb.export_packets(0x43, 0, [1, -1, -32768]), (one, 1))
        self.assertEqual(dfb.import_packet(one), dfb.SpacePacket(0x43, 0, [1, -1, -32768]))
        last = bytes.fromhex("0047 FFFF 000D 7FFF 0100 FF00 0000 1234 0002 0003")
        self.assertEqual(dfb.export_packets(0x47, dfb.LAST_PACKET_COUNT, (32767, 256, -256, 0, 0x1234, 2, 3)), (last, 0))
        self.assertEqual(dfb.import_packet(list(last)), (0x47, 16383, [32767, 256, -256, 0, 0x1234, 2, 3]))
        self.assertEqual(dfb.import_packet(bytearray(last)).count, 16383)
        # three packets of the longer sets, and the counts go over the last one
        samples = [n % 65536 - 32768 for n in range(0, 7 * 585 * 40503, 40503)]
        data, count = dfb.export_packets(0x44, 16382, samples)
        self.assertEqual((len(data), count), (2 * len(samples) + 18, 1))
        found = []
        while data:
            length = dfb.packet_bytes(data)
            found.append(dfb.import_packet(data[:length]))
            data = data[length:]
        self.assertEqual([(packet.apid, packet.count) for packet in found], [(0x44, 16382), (0x44, 16383), (0x44, 0)])
        self.assertEqual([len(packet.samples) for packet in found], [dfb.PACKET_SAMPLES, dfb.PACKET_SAMPLES, 7])
        self.assertEqual(sum((packet.samples for packet in found), []), samples)
        self.assertEqual(len(dfb.export_packets(0x45, 0, [0] * 2043)[0]), dfb.PACKET_BYTES - 4)

        self.refused(4, dfb.export_packets, 0x4E, 16384, [])
        self.refused(4, dfb.export_packets, 0x49, 0, [1, 2, 3])
        self.refused(22, dfb.export_packets, 0x43, 16384, [])
        self.refused(22, dfb.export_packets, 0x43, 65535, [1, 2, 3])
        self.refused(23, dfb.export_packets, 0x43, 0, [])
        self.refused(23, dfb.export_packets, 0x43, 0, [1, 2, 3, 4])
        self.refused(23, dfb.export_packets, 0x44, 0, [1, 2, 3])
        self.refused(23, dfb.import_packet, b"")
        self.refused(23, dfb.import_packet, one[:5])
        self.refused(4, dfb.import_packet, b"\0\x4E" + one[2:])
        self.refused(4, dfb.import_packet, b"\x01\x43" + one[2:])
        self.refused(4, dfb.import_packet, b"\xFC\x43" + one[2:-1])  # 0x443, and other faults
        for first in (0x08, 0x10, 0x20, 0x40, 0x80):
            self.refused(22, dfb.import_packet, bytes([first]) + one[1:])
            self.refused(22, dfb.import_packet, bytes([first]) + one[1:-1])
        for flags in (0x00, 0x40, 0x80):
            self.refused(22, dfb.import_packet, one[:2] + bytes([flags]) + one[3:])
        self.refused(23, dfb.import_packet, one[:-1])
        self.refused(23, dfb.import_packet, one + b"\0")
        self.refused(23, dfb.import_packet, one[:5] + b"\x06" + one[6:] + b"\0")
        self.refused(23, dfb.import_packet, one[:4] + b"\xFF\xFF")
        # 682 sets are over 4,090 bytes
        self.refused(23, dfb.import_packet, one[:4] + (4091).to_bytes(2, "big") + bytes(4092))

    def test_packet_bytes(self):
        self.assertEqual([dfb.packet_bytes(bytes(n)) for n in range(9)], [0, 0, 0, 0, 0, 0, 0, 7, 7])
        for high, low in ((0, 0), (0, 5), (0, 255), (1, 0), (1, 2), (15, 251), (255, 255)):
            length = 7 + 256 * high + low
            data = b"\xFF\xFF\xFF\xFF" + bytes([high, low]) + bytes(length)
            self.assertEqual([dfb.packet_bytes(data[:n]) for n in (5, 6, length - 1, length, length + 1)], [0, 0, 0, length, length])
            self.assertEqual(dfb.packet_bytes(list(bytearray(data))), length)

    def test_random_space_packets(self):
        r = random.Random(7)
        for _ in range(400):
            arguments = space_packets_model.random_export(r)
            try:
                expected = space_packets_model.export_packets(*arguments)
            except space_packets_model.Refused as refused:
                self.refused(refused.number, dfb.export_packets, *arguments)
            else:
                self.assertEqual(dfb.export_packets(*arguments), expected)
        for _ in range(1500):
            packet = space_packets_model.random_packet(r)
            for data in (packet, space_packets_model.damaged(r, packet)):
                try:
                    expected = space_packets_model.import_packet(data)
                except space_packets_model.Refused as refused:
                    self.refused(refused.number, dfb.import_packet, data)
                else:
                    self.assertEqual(dfb.import_packet(data), expected)

    def test_numbers_that_do_not_fit(self):
        board, log, sums = dfb.Board(), dfb.CountedLog(bytearray(99)), dfb.Summed()
        for function, arguments in (
            (board.command, (0x130, 0)),
            (board.command, (0x30, 0x10000)),
            (board.command, (0x30, -1)),
            (board.read, (0x130,)),
            (dfb.pack, (0x143, [0, 0, 0])),
            (dfb.append, (bytearray(9), 0, 0x104)),
            (dfb.append, (bytearray(9), 0, 1, 0x130)),
            (dfb.append, (bytearray(9), -1, 4)),
            (dfb.band_of, (256, 0)),
            (dfb.band_of, (0, 0x10000)),
            (dfb.describe_band, (256, 0)),
            (dfb.describe_band, (0, 256)),
            (dfb.expand_band, (0x10F,)),
            (dfb.unpack, (0x143, bytes(9))),
            (dfb.choose_interval, ([1], 2**32, 1)),
            (board.tick, ([2**32] * dfb.POWERS,)),
            (dfb.pack, (0x43, [0, 0, 32768])),
            (dfb.unpack, (0x43, [256] * 9)),
            (dfb.append, (bytearray(9), 0, 4, 0, 2**32)),
            (dfb.read_record, (b"", -1)),
            (dfb.check_commands, ([256],)),
            (dfb.walk_next, ([256], [0] * 9)),
            (dfb.walk_next, ([4], [0] * 8 + [2**64])),
            (dfb.walk_next, ([4], [0] * 8 + [-1])),
            (list, (dfb.walk([256]),)),
            (log.command, (0x130, 0)),
            (log.command, (0x30, 0x10000)),
            (log.mark, (2**32,)),
            (log.mark, (-1,)),
            (log.set, (0x143, [0, 0, 0])),
            (log.set, (0x43, [0, 0, 32768])),
            (log.report, ([256] * 54,)),
            (dfb.count_sets, ([256],)),
            (dfb.CountedLog.open, (bytearray(9), -1)),
            (dfb.cadence_of, (256,)),
            (dfb.compress_band, (2**32,)),
            (dfb.coarse_totals, (256, [0] * 112)),
            (dfb.coarse_totals, (0, [2**64] * 112)),
            (dfb.compress_sum, (2**64,)),
            (dfb.expand_sum, (0x10000,)),
            (dfb.BurstSlots(1).offer, (2**32,)),
            (dfb.choose_interval, ([2**32], 0, 1)),
            (dfb.choose_interval, ([1], 0, 2**32)),
            (dfb.snapshot_read, ([256] * 20,)),
            (dfb.snapshot_read, ([-1] * 20,)),
            (dfb.snapshot_write, ([2**32] + [1] * 9, [])),
            (dfb.snapshot_write, ([0] * 6 + [1, 0, 0, -1], [])),
            (dfb.snapshot_write, ([0] * 6 + [1, 0, 0, 2**32], [])),
            (dfb.snapshot_write, ([0, 0, 0, 0, 0, 1, 1, 0, 0, 0], [32768] * 128)),
            (dfb.snapshot_write, ([0, 0, 0, 0, 0, 1, 1, 0, 0, 0], [-32769] * 128)),
            (sums.add, (256, 255, 255, [1] * 2048)),
            (sums.add, (-1, 255, 255, [1] * 2048)),
            (sums.add, (0, 256, 255, [1] * 2048)),
            (sums.add, (0, 255, -1, [1] * 2048)),
            (sums.add, (0, 255, 255, [32768] * 2048)),
            (sums.add, (0, 255, 255, [1] * 2047 + [-32769])),
            (dfb.export_packets, (0x143, 0, [1, 2, 3])),
            (dfb.export_packets, (-1, 0, [1, 2, 3])),
            (dfb.export_packets, (0x43, 0x10000, [1, 2, 3])),
            (dfb.export_packets, (0x43, -1, [1, 2, 3])),
            (dfb.export_packets, (0x43, 0, [1, 2, 32768])),
            (dfb.export_packets, (0x43, 0, [1, 2, -32769])),
            (dfb.import_packet, ([0, 0x43, 0xC0, 0, 0, 5, 0, 0, 0, 0, 0, 256],)),
            (dfb.import_packet, ([-1] * 12,)),
            (dfb.packet_bytes, ([0, 0, 0, 0, 256, 0, 0],)),
        ):
            self.assertRaises(OverflowError, function, *arguments)
        self.assertEqual(bytes(board.state), bytes(2 * dfb.STATE))
        self.assertEqual((log.log, log.used), (bytes(99), 0))
        self.assertEqual((bytes(sums.state), bytes(sums.totals)), (bytes(dfb.SUM_STATE), bytes(8 * dfb.SUM_TOTALS)))


class Library(unittest.TestCase):
    def test_folder_by_name(self):
        """DFB_LIB names the library's folder, and no other is looked at."""
        script = "import dfb; print(dfb._library._name)"
        named = {"PYTHONPATH": DIST, "DFB_LIB": os.path.join(DIST, "..", "dist"), "PYTHONDONTWRITEBYTECODE": "1"}
        done = subprocess.run([sys.executable, "-c", script], env=named, capture_output=True, encoding="utf8")
        self.assertEqual(done.stdout.strip(), os.path.join(DIST, "..", "dist", "libdfb.so"))
        done = subprocess.run([sys.executable, "-c", script], env={**named, "DFB_LIB": "/none"}, capture_output=True, encoding="utf8")
        self.assertIn("ImportError: libdfb.so is not in /none", done.stderr)


if __name__ == "__main__":
    unittest.main()
