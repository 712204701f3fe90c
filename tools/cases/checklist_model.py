"""An independent model of the check of planners' command lists, written from ticket 6 of paper 02 and from 01, "Registers", "Periods" and
"The log".

`check(log)` is the final registers of a list, or raises Bad with the refusal and its offset. `line(log)` is the line that `checklist` prints.
`random_list(r)` makes a list, whole or damaged, from a random.Random.
"""
import struct

from listing_model import BODY_LENGTH, Bad, stored

COMMAND, SECOND_MARK = 1, 3


def command(ident, information):
    return bytes([COMMAND, ident, information >> 8, information & 0xFF])


def mark(second):
    return bytes([SECOND_MARK]) + struct.pack(">I", second)


def is_over_period(registers):
    """A processor is enabled and N is above C."""
    averaged, period = 2 ** (registers[0] >> 8 & 15), 2 ** (registers[0] >> 12)
    return any(value >> 5 & 1 for value in registers) and averaged > period


def command_refusal(body):
    ident, information = body[0], body[1] << 8 | body[2]
    if not 0x30 <= ident <= 0x36:
        return 1
    return 20 if stored(ident - 0x30, information) != information else None


def mark_refusal(second, before, registers):
    """before: the second of the mark before it, or None."""
    if before is not None and second < before:
        return 19
    return 21 if is_over_period(registers) else None


def check(log):
    registers, before, at = [0] * 7, None, 0
    while at < len(log):
        kind = log[at]
        if kind not in BODY_LENGTH:
            raise Bad(9, at)
        body = log[at + 1:at + 1 + BODY_LENGTH[kind]]
        if len(body) < BODY_LENGTH[kind]:
            raise Bad(10, at)
        if kind == COMMAND:
            refusal = command_refusal(body)
        elif kind == SECOND_MARK:
            second = struct.unpack(">I", body)[0]
            refusal = mark_refusal(second, before, registers)
        else:
            refusal = 18
        if refusal is not None:
            raise Bad(refusal, at)
        if kind == COMMAND:
            registers[body[0] - 0x30] = body[1] << 8 | body[2]
        else:
            before = second
        at += 1 + len(body)
    if is_over_period(registers):
        raise Bad(21, len(log))
    return registers


def line(log):
    try:
        return "OK %s\n" % " ".join("%04X" % value for value in check(log))
    except Bad as bad:
        return "%s\n" % bad


def mended(r, registers):
    """A command after which N is not above C, or no processor is enabled."""
    on = [n for n in range(7) if registers[n] >> 5 & 1]
    if len(on) == 1 and r.random() < 0.4:
        return on[0], registers[on[0]] & ~0x20
    navg = registers[0] >> 8 & 15
    ncad = r.choice([navg, r.randrange(navg, 11)])
    return 0, registers[0] & 0x0FFF | ncad << 12


def whole_list(r, count):
    """Some commands and second marks that keep the rules."""
    log, registers, second = bytearray(), [0] * 7, r.choice([0, 0, 7, 1_204_416_000, 2**32 - 1, r.randrange(2**32)])

    def write(n, value):
        registers[n] = value
        log.extend(command(0x30 + n, value))

    for _ in range(count):
        if r.random() < 0.6:
            n = r.choice([0, 0, 0, 1, 2, 3, 4, 5, 6])
            write(n, stored(n, r.choice([r.randrange(65536), r.choice([0x20, 0]) | r.randrange(0x17), r.randrange(16) << 12 | 0x20])))
        else:
            if is_over_period(registers):
                write(*mended(r, registers))
            log += mark(second)
            second = min(second + r.choice([0, 1, 1, 1, 60, r.randrange(2**32)]), 2**32 - 1)
    if is_over_period(registers):
        write(*mended(r, registers))
    return bytes(log)


# Records that offend, some by themselves and some by those before or behind them.
FAULTS = [bytes.fromhex(text) for text in (
    "00", "05", "FF", "01", "013000", "0131", "0200", "03000000", "04", "02430001", "02420001", "024E0000", "01370000", "012F0000", "01430020",
    "01300017", "01310040", "013600A0", "0130FFFF", "0130B020", "0300000000", "01300120", "0300000000 0300000001", "01300120 03FFFFFFFF",
)]


def record_places(log):
    """Where the records of a whole list start, and its end."""
    places = [0]
    while places[-1] < len(log):
        places.append(places[-1] + 1 + BODY_LENGTH[log[places[-1]]])
    return places


def random_list(r):
    """A list that keeps the rules; in some three of five it is then damaged."""
    log = bytearray(whole_list(r, r.choice([0, 1, 2, 3, 5, 8, 12])))
    damage = r.random()
    if log and damage < 0.12:
        log[r.randrange(len(log))] = r.choice([0, 1, 2, 3, 4, 5, 0x20, 0x30, 0x37, r.randrange(256)])
    elif log and damage < 0.2:
        del log[r.randrange(len(log)):]
    elif log and damage < 0.28:
        del log[r.randrange(len(log))]
    elif damage < 0.6:
        places = record_places(log)
        at = r.choice([places[0], places[-1], r.choice(places)])
        log[at:at] = r.choice(FAULTS)
    return bytes(log)
