"""PDUs field by field: a reader that says which fault octets have, written from the standard's tables and not from the
product's code, and pseudo-random PDUs whose fields lie at the edges of their ranges.
"""

FILE_DATA, TOWARD_SENDER, UNACKNOWLEDGED, CRC, LARGE = 0x10, 0x08, 0x04, 0x02, 0x01
EOF, FINISHED, ACK, METADATA, NAK, PROMPT, KEEP_ALIVE = 4, 5, 6, 7, 8, 9, 12
DIRECTIVES = (EOF, FINISHED, ACK, METADATA, NAK, PROMPT, KEEP_ALIVE)
ENTITY_ID = 6
# The faults, by the numbers with which they are told.
TOO_SHORT, BAD_VERSION, CRC_PRESENT, LENGTH_MISMATCH, UNKNOWN_DIRECTIVE, FIELD_CUT, NO_FILE_NAME = 1, 2, 3, 5, 6, 7, 8

# Numbers at the edges of one, two and four octets, of the limit of a file, and of one more octet.
NUMBERS = [0, 1, 2, 3, 4, 5, 127, 128, 255, 256, 65_535, 65_536, 2**24 - 1, 2**24, 2**24 + 1, 2**31 - 1, 2**31, 2**32 - 2, 2**32 - 1]
LARGE_NUMBERS = NUMBERS + [2**32, 2**63 - 1, 2**63, 2**64 - 1]
# The checksum of the octets "abc", and others.
CHECKSUMS = [0x61626300, 0, 1, 2**31, 2**32 - 1]
TEXTS = [b"", b"a", b"abc", b"b", b"x" * 63, b"x" * 64, b"x" * 255]


class Cut(Exception):
    """A field isn't there as a whole."""


class Fields:
    """Octets that are read from left to right."""

    def __init__(self, octets):
        self.octets, self.at = bytes(octets), 0

    def take(self, count):
        """So many octets."""
        if self.at + count > len(self.octets):
            raise Cut
        self.at += count
        return self.octets[self.at - count : self.at]

    def number(self, width):
        """A number of so many octets."""
        return int.from_bytes(self.take(width), "big")

    def text(self):
        """Octets behind their number, which has one octet."""
        return self.take(self.number(1))

    def has_more(self):
        """Whether octets are left."""
        return self.at < len(self.octets)

    def close(self):
        """No octet is left."""
        if self.has_more():
            raise Cut


def read_locations(fields):
    """The TLVs of an EOF or a Finished. An entity ID has one to eight octets."""
    while fields.has_more():
        kind, value = fields.number(1), fields.text()
        if kind == ENTITY_ID and not 1 <= len(value) <= 8:
            raise Cut


def read_directive(fields, width):
    """A directive; gives its fault, if that isn't a field that is cut."""
    code = fields.number(1)
    if code not in DIRECTIVES:
        return UNKNOWN_DIRECTIVE
    if code == EOF:
        fields.take(1 + 4 + width)
        read_locations(fields)
    elif code == FINISHED:
        fields.take(1)
        read_locations(fields)
    elif code == ACK:
        if fields.number(1) >> 4 not in (EOF, FINISHED):
            return UNKNOWN_DIRECTIVE
        fields.take(1)
        fields.close()
    elif code == METADATA:
        fields.take(1 + width)
        names = fields.text(), fields.text()
        while fields.has_more():
            fields.take(1)
            fields.text()
        return None if all(names) else NO_FILE_NAME
    elif code == NAK:
        fields.take(2 * width)
        while fields.has_more():
            fields.take(2 * width)
    else:
        fields.take(1 if code == PROMPT else width)
        fields.close()
    return None


def read_body(first, lengths, octets):
    """The fault of a data field, or None."""
    width = 8 if first & LARGE else 4
    fields = Fields(octets)
    try:
        if not first & FILE_DATA:
            return read_directive(fields, width)
        if lengths & 8:
            fields.take(fields.number(1) & 63)
        fields.take(width)
    except Cut:
        return FIELD_CUT
    return None


def fault_of(octets):
    """The first fault of a datagram, or None where it is a PDU."""
    if len(octets) < 4:
        return TOO_SHORT
    first, lengths = octets[0], octets[3]
    header = 4 + 2 * ((lengths >> 4 & 7) + 1) + (lengths & 7) + 1
    if len(octets) < header:
        return TOO_SHORT
    if first >> 5 != 1:
        return BAD_VERSION
    if first & CRC:
        return CRC_PRESENT
    if len(octets) != header + int.from_bytes(octets[1:3], "big"):
        return LENGTH_MISMATCH
    return read_body(first, lengths, octets[header:])


class Maker:
    """Makes PDUs of fields, by pseudo-random numbers."""

    def __init__(self, lots):
        self.lots = lots

    def rarely(self):
        """True in one of sixteen."""
        return self.lots.randrange(16) == 0

    def number(self, width, usual):
        """A field with a number: a usual one, or one at an edge."""
        numbers = usual if self.lots.randrange(2) else LARGE_NUMBERS if width == 8 else NUMBERS
        return self.lots.choice(numbers).to_bytes(width, "big")

    def text(self, usual):
        """A length and its octets; rarely the length is off by one, or as large as can be."""
        octets = self.lots.choice(usual if self.lots.randrange(4) else TEXTS)
        length = len(octets)
        if self.rarely():
            length = self.lots.choice([max(length - 1, 0), min(length + 1, 255), 255])
        return bytes([length]) + octets

    def tlvs(self, most):
        """Some TLVs: those that Metadata, EOF and Finished know, and others."""
        made = b""
        for _ in range(self.lots.randrange(most + 1)):
            kind = self.lots.choice([0, 1, 2, 4, 5, ENTITY_ID, ENTITY_ID, 7, 255])
            made += bytes([kind]) + self.text([b"\x01", b"\x02", b"hi", b"\x00" * 8, b"\x00" * 9])
        return made

    def flags(self):
        """An octet of flags, often a condition without an error."""
        return bytes([self.lots.choice([0, 0, 0, 0x10, 0x40, 0x80, 0xF0, 0xFF, self.lots.randrange(256)])])

    def directive(self, width):
        """A directive's data field."""
        lots = self.lots
        code = lots.choice(DIRECTIVES) if not self.rarely() else lots.choice([0, 1, 2, 3, 10, 11, 13, 255])
        body = bytes([code])
        if code == EOF:
            return body + self.flags() + lots.choice(CHECKSUMS).to_bytes(4, "big") + self.number(width, [3]) + self.tlvs(1)
        if code == FINISHED:
            return body + self.flags() + self.tlvs(2)
        if code == ACK:
            of = lots.choice([EOF, FINISHED]) if not self.rarely() else lots.randrange(16)
            return body + bytes([of << 4 | lots.randrange(2)]) + self.flags()
        if code == METADATA:
            flags = bytes([lots.choice([0, 0x40, 0x0F, 0x4F, lots.randrange(256)])])
            return body + flags + self.number(width, [3]) + self.text([b"a"]) + self.text([b"b"]) + self.tlvs(3)
        if code == NAK:
            offsets = [self.number(width, [0, 1, 2, 3]) for _ in range(2 * lots.randrange(1, 6))]
            return body + b"".join(offsets)
        if code == PROMPT:
            return body + self.flags()
        return body + self.number(width, [0, 3])

    def file_data(self, width, has_metadata):
        """The data field of File Data."""
        body = b""
        if has_metadata:
            octets = self.lots.choice([b"", b"\xaa", b"\xaa" * 63])
            length = len(octets) if not self.rarely() else self.lots.choice([len(octets) + 1, 63]) & 63
            body = bytes([self.lots.randrange(4) << 6 | length]) + octets
        return body + self.number(width, [0, 1, 2]) + self.lots.choice([b"abc", b"a", b"", b"bc", b"c", b"x" * 200])

    def header(self, first, lengths, size):
        """A header: the transaction is one that the entity knows, or another."""
        lots = self.lots
        wide, long = (lengths >> 4 & 7) + 1, (lengths & 7) + 1
        source, destination, number = (2, 1, 4) if first & TOWARD_SENDER else (1, 2, 5)
        if self.rarely():
            source, destination = lots.choice([(2, 1), (1, 1), (2, 2), (0, 2), (1, 3), (255, 255)])
        if self.rarely():
            number = lots.choice([0, 1, 4, 5, 6, 127, 128, 254, 255])
        if self.rarely():
            size = lots.choice([max(size - 1, 0), size + 1, 0, 65_535])
        ids = source.to_bytes(wide, "big") + number.to_bytes(long, "big") + destination.to_bytes(wide, "big")
        return bytes([first]) + size.to_bytes(2, "big") + bytes([lengths]) + ids

    def pdu(self):
        """A PDU, or octets that are nearly one."""
        lots = self.lots
        first = 0x20 if not self.rarely() else lots.choice([0x00, 0x40, 0xE0])
        for flag, odds in ((FILE_DATA, 3), (TOWARD_SENDER, 3), (UNACKNOWLEDGED, 2), (LARGE, 8), (CRC, 32)):
            if lots.randrange(odds) == 0:
                first |= flag
        lengths = 0x00 if lots.randrange(4) else lots.choice([0x10, 0x01, 0x11, 0x33, 0x77, 0x80, 0x88])
        if first & FILE_DATA and lots.randrange(4) == 0:
            lengths |= 0x08
        width = 8 if first & LARGE else 4
        body = self.file_data(width, lengths & 8) if first & FILE_DATA else self.directive(width)
        if self.rarely():
            body = body[:-1] if lots.randrange(2) else body + b"\x00"
        octets = self.header(first, lengths, len(body)) + body
        return octets[: lots.randrange(8)] if lots.randrange(64) == 0 else octets
