#!/usr/bin/env python3
"""Writes the input of crates/setlist_cases from the list of cases below, and its expected output from listing_model.py.

In the input each log stands after its length in two bytes, high byte first.
"""
import os
import struct

from listing_model import LEGAL, LEGAL_BEFORE, listing

CRATE = os.path.join(os.path.dirname(os.path.abspath(__file__)), "..", "..", "crates", "setlist_cases")


def h(text):
    return bytes.fromhex(text.replace(" ", ""))


def spec(words, code):
    """Words of SPEC: word j has band 2j + 1 in the upper byte and band 2j in the lower."""
    return b"".join(bytes([2, 0x4E, code(2 * j + 1), code(2 * j)]) for j in range(words))


def by_place(band):
    return LEGAL[band % len(LEGAL)]


LARGEST = 0xF4
TICK = h("04")
E_SVY = h("02430001 0243FFFF 02438000")
SIX_OF_V_B1 = h("02470001 02470002 02470003 02470004 02470005 02470006")
V_B1 = SIX_OF_V_B1 + h("02478007")
SEVEN = b"".join(h("01%02X0020" % (0x30 + n)) for n in range(1, 7))

# A heading, and the logs under it.
CASES = [
    ("01's whole case", [h("013000E3") + E_SVY + h("0300000007 04")]),
    ("the empty log", [b""]),
    ("a set of each waveform APID", [
        E_SVY
        + h("02440001 02440002 02440003 02440004 02440005 02440006 0244FFF9")
        + h("02450000 02458000 02457FFF 0246000A 0246000B 0246FFF6")
        + V_B1
        + h("02480009 02480063 024803E7")
    ]),
    ("second marks: 0, 9, 10, 4294967295", [h("0300000000 0300000009 030000000A 03FFFFFFFF")]),
    ("the register rules: 0xFFFF and 0xAB16 to 0x30, 0xFFFF to 0x31 and 0x36, 0x0017 and 0x0018 to 0x30",
     [h("0130FFFF 0130AB16 0131FFFF 0136FFFF 01300017 01300018")]),
    ("1: IDs 0x2F and 0x37", [h("012F0000"), h("04 01370000")]),
    ("4: APIDs 0x42, 0x49, 0x4D and 0x4F", [h("02420000"), h("02490000"), h("024D0000"), h("04 024F0000")]),
    ("5: a set ended by the log's end, a tick, a second mark, a command, a word of another APID",
     [h("02430001 02430002"), h("02430001 04"), h("02430001 0300000000"), h("02430001 01300000"), h("02430001 02440001")]),
    # one set: a tick or another set's word cuts in, or the log ends; two sets: the second's words complete the first, and what follows them
    # is at fault; seven sets are read as six of seven words
    ("V_B1 sets of six words: 5, and END for seven sets",
     [SIX_OF_V_B1 + TICK, TICK + SIX_OF_V_B1 + E_SVY, SIX_OF_V_B1, 2 * SIX_OF_V_B1 + TICK, 2 * SIX_OF_V_B1, 7 * SIX_OF_V_B1 + TICK]),
    ("6", [h("024E0000")]),
    ("7: either byte, in the first word and in a later one",
     [h("01300020 024E0800"), h("01300020 024E0008"), h("01300020") + spec(3, by_place) + h("024E00F3")]
     + [h("01300020 024E%02X00" % code) for code in (0xF5, 0xF6, 0xF7, 0xF8, 0xFC, 0xFF)]),
    ("9: kinds 00, 05 and FF", [h("00"), h("04 05"), h("FF")]),
    ("10: one byte too few of each kind", [h("01"), h("013000"), h("024300"), h("03000000")]),
    ("9 comes before 5", [h("02430001 05")]),
    ("10 comes before 5", [h("02430001 0243"), h("02430001 03000000")]),
    ("10 comes before 1 and 4", [h("01FF00"), h("02FF00")]),
    ("5 comes before 1 and 4", [h("02430001 01000000"), h("02430001 02420000")]),
    ("5 comes before 6", [h("02430001 024E0000")]),
    ("5 comes before 7", [h("01300020") + spec(3, by_place) + h("02430808")]),
    ("4 comes before 6: an APID that is not kept, no processor enabled", [h("02420000")]),
    ("6 comes before 7", [h("01300040 024E08F0")]),
    ("SPEC at 36, 64 and 112 bands, one processor",
     [h("0130%04X" % (setting << 6 | 0x20)) + spec(words, by_place) for setting, words in ((0, 18), (1, 32), (2, 56))]),
    ("SPEC at 36, 64 and 112 bands, seven processors",
     [h("0130%04X" % (setting << 6 | 0x20)) + SEVEN + spec(7 * words, by_place) for setting, words in ((0, 18), (1, 32), (2, 56))]),
    ("a log made before ticket 5: each of the 124 codes of then, two processors of 64 bands",
     [h("01300060 01310020 04") + spec(64, lambda b: LEGAL_BEFORE[b % 124])]),
    ("SPEC of processors 2 and 7, then a tick", [h("01310032 01360020") + spec(36, by_place) + h("04")]),
    ("register changes between sets: bands, then a second processor",
     [h("01300060") + spec(32, lambda b: 0xEC) + h("01300021") + spec(18, lambda b: 5) + h("01350036") + spec(36, lambda b: b % 8)]),
    ("a SPEC set ended by the log's end one word short", [h("01300020") + spec(17, lambda b: 1)]),
    ("the longest lines: 112 bands at the largest value", [h("013000B6") + spec(56, lambda b: LARGEST)]),
]


def main():
    logs = [log for _, group in CASES for log in group]
    expected = "".join(listing(log) for log in logs)
    # What the program lists without input: logs of ticks. In 70 bytes one of 1, one of 2 and one of 65,537, then the largest, of which
    # it prints the length of the text and its end.
    largest = listing(TICK * 65536)
    expected += listing(TICK) + "refused\n" + listing(TICK * 65537)
    expected += "%d\n%s" % (len(largest), largest[-16:])
    with open(os.path.join(CRATE, "stdin"), "wb") as out:
        out.write(b"".join(struct.pack(">H", len(log)) + log for log in logs))
    with open(os.path.join(CRATE, "stdout"), "w", encoding="utf8") as out:
        out.write(expected)


if __name__ == "__main__":
    main()
