"""An independent model of space packets, written from ticket 7 of paper 02 and the primary header of CCSDS 133.0-B (4.1.3).

`export_packets(apid, first, samples, room)` gives the bytes and the next count, `read_header(packet)` APID and count, and
`import_packet(packet, room)` these and the samples; room is the length of the output. Each raises Refused. `random_export`, `random_packet` and
`damaged` are arguments that are often accepted.
"""
# The fields of the primary header: name and bits.
FIELDS = (("version", 3), ("type", 1), ("secondary", 1), ("apid", 11), ("flags", 2), ("count", 14), ("length", 16))
# What the ticket states of them.
STATED = {"version": 0, "type": 0, "secondary": 0, "flags": 3}
# The samples of a set.
WORDS = {0x43: 3, 0x44: 7, 0x45: 3, 0x46: 3, 0x47: 7, 0x48: 3}
HEADER, MOST_BYTES, COUNTS = 6, 4096, 16384
MOST_DATA = MOST_BYTES - HEADER
ANY_ROOM = 10**9


class Refused(Exception):
    def __init__(self, number):
        super().__init__("refusal %d" % number)
        self.number = number


def header_bytes(**field):
    """Six bytes of a header; fields that are not given are as stated."""
    number = 0
    for name, bits in FIELDS:
        value = {**STATED, **field}[name]
        assert 0 <= value < 2**bits
        number = number * 2**bits + value
    return number.to_bytes(HEADER, "big")


def header_fields(packet):
    number, field = int.from_bytes(packet[:HEADER], "big"), {}
    for name, bits in reversed(FIELDS):
        number, field[name] = divmod(number, 2**bits)
    return field


def data_bytes(samples):
    return b"".join(sample.to_bytes(2, "big", signed=True) for sample in samples)


def packet_of(apid, count, samples):
    data = data_bytes(samples)
    return header_bytes(apid=apid, count=count, length=len(data) - 1) + data


def most_samples(apid):
    """As many whole sets as fit a packet."""
    return max(samples for samples in range(0, MOST_DATA, WORDS[apid]) if HEADER + 2 * samples <= MOST_BYTES)


def export_packets(apid, first, samples, room=ANY_ROOM):
    if apid not in WORDS:
        raise Refused(4)
    if first >= COUNTS:
        raise Refused(22)
    if len(samples) == 0 or len(samples) % WORDS[apid] != 0:
        raise Refused(23)
    most, packets, count = most_samples(apid), [], first
    for at in range(0, len(samples), most):
        packets.append(packet_of(apid, count, samples[at:at + most]))
        count = (count + 1) % COUNTS
    data = b"".join(packets)
    if room < len(data):
        raise Refused(2)
    return data, count


def read_header(packet):
    if len(packet) < HEADER:
        raise Refused(23)
    field, data = header_fields(packet), len(packet) - HEADER
    if field["apid"] not in WORDS:
        raise Refused(4)
    if any(field[name] != value for name, value in STATED.items()):
        raise Refused(22)
    if field["length"] + 1 != data or data > MOST_DATA or data % (2 * WORDS[field["apid"]]) != 0 or data == 0:
        raise Refused(23)
    return field["apid"], field["count"]


def import_packet(packet, room=ANY_ROOM):
    apid, count = read_header(packet)
    if room < (len(packet) - HEADER) // 2:
        raise Refused(2)
    return apid, count, [int.from_bytes(packet[at:at + 2], "big", signed=True) for at in range(HEADER, len(packet), 2)]


# ---- random arguments


def random_apid(r):
    """Mostly of a waveform."""
    return r.choice(list(WORDS)) if r.random() < 0.9 else r.choice([0, 0x42, 0x49, 0x4E, 0xC3, 255, r.randrange(256)])


def random_count(r):
    """Mostly a count, often near the last one."""
    return r.choice([0, 1, 255, 256, 16381, 16382, 16383, r.randrange(COUNTS)]) if r.random() < 0.9 else r.choice([16384, 32768, 65535])


def random_samples(r, count):
    return [r.choice([0, 1, -1, 255, 256, 32767, -32768, r.randrange(-32768, 32768)]) for _ in range(count)]


def random_export(r, most_sets=None):
    """APID, first count and samples, of so many sets at most or else of up to four packets; some are refused."""
    apid = random_apid(r)
    words = WORDS.get(apid, 3)
    full = MOST_DATA // (2 * words)
    sets = r.randrange(most_sets or 3 * full + 2) + 1
    if most_sets is None:
        sets = r.choice([1, 2, full - 1, full, full + 1, 2 * full, sets])
    count = words * sets if r.random() < 0.9 else r.choice([0, 1, words * sets - 1, words * sets + 1])
    return apid, random_count(r), random_samples(r, count)


def random_packet(r, most_sets=None):
    """A packet that is accepted, of so many sets at most."""
    apid = r.choice(list(WORDS))
    full = MOST_DATA // (2 * WORDS[apid])
    sets = r.randrange(most_sets or full) + 1
    if most_sets is None:
        sets = r.choice([1, 2, full, sets])
    return packet_of(apid, r.choice([0, 16383, r.randrange(COUNTS)]), random_samples(r, WORDS[apid] * sets))


def with_length(packet, length):
    return packet[:4] + length.to_bytes(2, "big") + packet[6:]


def damaged(r, packet):
    """A packet with one or two faults: a bit of its header turned, bytes lost or added with their length or without, another APID or length."""
    for _ in range(r.choice([1, 1, 2])):
        choice = r.random()
        if choice < 0.4 or len(packet) < HEADER:
            bit = r.randrange(8 * HEADER)
            packet = bytes(byte ^ (128 >> bit % 8 if at == bit // 8 else 0) for at, byte in enumerate(packet))
        elif choice < 0.55:
            packet = packet[:r.randrange(len(packet))]
        elif choice < 0.65:
            packet += r.randbytes(r.choice([1, 2, 6, 14, 42]))
        elif choice < 0.8:  # another number of data bytes, which the length field says
            data = packet[HEADER:] + r.randbytes(r.choice([1, 2, 6, 14, 42, MOST_BYTES]))
            data = data[:r.choice([0, 1, 5, 7, 13, MOST_DATA, MOST_DATA + 1, MOST_DATA + 2, 4092, 4094, 4104, r.randrange(len(data) + 1)])]
            packet = with_length(packet[:HEADER] + data, (len(data) - 1) % 65536)
        elif choice < 0.9:
            packet = bytes([packet[0] & 0xF8 | r.randrange(8)]) + packet[1:]
        else:
            packet = with_length(packet, r.choice([0, 65535, len(packet) - HEADER, len(packet), r.randrange(65536)]))
    return packet
