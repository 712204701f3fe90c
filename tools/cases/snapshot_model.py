"""An independent model of the packets of snapshots, written from ticket 1 of paper 02 and the table of TM_LF_RSWF in document 000.

`read(packet, room)` gives the ten numbers of the header and the samples, `write(header, samples, room)` the packet; room is the length of the
output. Each raises Refused. `random_packet`, `damaged` and `random_write` are arguments that are often accepted.
"""
# The document's rows: offset, ID, size in bytes. From byte 20 on stand the samples.
ROWS = (
    (0, "SID", 1),
    (1, "Acquisition Coarse Delta Time", 2),
    (3, "Acquisition Fine Time", 2),
    (5, "SEQ_CNT", 2),
    (7, "Aux Length", 1),
    (8, "SWITCHES1", 4),
    (12, "SWITCHES3", 1),
    (13, "COMPONENT_MASK", 1),
    (14, "TOTAL_PACKETS", 2),
    (16, "ARTEFACTS", 1),
    (17, "SNAPSHOT_NUMBER", 1),
    (18, "SEQ_COUNTER", 2),
)
SID, AUX_LENGTH, MOST_PACKETS, START, COMPONENT = 33, 8, 3072, 20, 128
# The rows that a header has.
FIELDS = [row for row in ROWS if row[1] not in ("SID", "Aux Length")]
ANY_ROOM = 10**6


class Refused(Exception):
    def __init__(self, number):
        super().__init__("refusal %d" % number)
        self.number = number


def sample_count(mask):
    return COMPONENT * sum(mask >> bit & 1 for bit in range(8))


def check_range(total, number):
    if total > MOST_PACKETS or number >= total:
        raise Refused(15)


def read(packet, room=ANY_ROOM):
    if len(packet) < START:
        raise Refused(16)
    field = {name: int.from_bytes(packet[offset:offset + size], "big") for offset, name, size in ROWS}
    if field["SID"] != SID or field["Aux Length"] != AUX_LENGTH:
        raise Refused(14)
    check_range(field["TOTAL_PACKETS"], field["SEQ_COUNTER"])
    count = sample_count(field["COMPONENT_MASK"])
    if len(packet) != START + 2 * count:
        raise Refused(16)
    if room < count:
        raise Refused(2)
    samples = [int.from_bytes(packet[at:at + 2], "big", signed=True) for at in range(START, len(packet), 2)]
    return tuple(field[name] for _, name, _ in FIELDS), samples


def write(header, samples, room=ANY_ROOM):
    if len(header) != len(FIELDS) or any(number >= 256**size for number, (_, _, size) in zip(header, FIELDS)):
        raise Refused(2)
    field = {name: number for number, (_, name, _) in zip(header, FIELDS)}
    check_range(field["TOTAL_PACKETS"], field["SEQ_COUNTER"])
    count = sample_count(field["COMPONENT_MASK"])
    if len(samples) != count:
        raise Refused(16)
    if room < START + 2 * count:
        raise Refused(2)
    field.update({"SID": SID, "Aux Length": AUX_LENGTH})
    packet = bytearray(START)
    for offset, name, size in ROWS:
        packet[offset:offset + size] = field[name].to_bytes(size, "big")
    return bytes(packet) + b"".join(sample.to_bytes(2, "big", signed=True) for sample in samples)


# ---- random arguments


def random_mask(r, ones):
    """A mask with so many ones at most, and often few."""
    return sum(1 << bit for bit in r.sample(range(8), r.choice([0, 0, 1, 1, 2, 8]))[:ones])


def random_header(r, ones=8):
    total = r.choice([1, 2, MOST_PACKETS, r.randrange(1, MOST_PACKETS + 1)])
    number = r.choice([0, total - 1, r.randrange(total)])
    given = {"COMPONENT_MASK": random_mask(r, ones), "TOTAL_PACKETS": total, "SEQ_COUNTER": number}
    return tuple(given.get(name, r.choice([0, 256**size - 1, r.randrange(256**size)])) for _, name, size in FIELDS)


def random_samples(r, count):
    return [r.choice([0, 1, -1, 32767, -32768, r.randrange(-32768, 32768)]) for _ in range(count)]


def random_write(r, ones=8):
    """A header and samples; some are refused."""
    header = list(random_header(r, ones))
    count = sample_count(header[5])
    choice = r.random()
    if choice < 0.1:
        header[6], header[9] = r.choice([(MOST_PACKETS + 1, 0), (header[9], header[9]), (0, 0), (r.randrange(65536), r.randrange(65536))])
    elif choice < 0.2:
        count = max(count + r.choice([-COMPONENT, -1, 1]), 0)
    elif choice < 0.3:
        header[5] = r.randrange(256)
    return tuple(header), random_samples(r, count)


def random_packet(r, ones=8):
    header = random_header(r, ones)
    return write(header, random_samples(r, sample_count(header[5])))


def damaged(r, packet):
    """A packet with one or two of its first 20 bytes changed, or bytes lost or added."""
    packet = bytearray(packet)
    for _ in range(r.choice([1, 1, 2])):
        choice = r.random()
        if choice < 0.6:
            at = r.choice([0, 7, 13, 14, 15, 18, 19, r.randrange(START)])
            packet[at:at + 1] = bytes([r.choice([0, 8, 12, 33, 34, r.randrange(256), r.randrange(256)])])
        elif choice < 0.8:
            at = r.randrange(len(packet) + 1)
            del packet[at:at + r.choice([1, 2, 256])]
        else:
            packet += bytes(r.choice([1, 2, 256]))
    return bytes(packet)
