"""Scripts of network names and messages: random and damaged ones, and some with known answers.

Everything random here follows from a seed, so that a script can be made again.
"""

import random
from collections.abc import Callable, Iterator
from dataclasses import dataclass, field

from scripts import Vector, exactly, line_of, plain_hex

_LONGEST_MESSAGE = 2048

_REQUEST = 0x56
_REJECT = 0x58
_RESULT = 0x5A


def _lines(rng: random.Random, command: bytes, words: list[bytes]) -> list[bytes]:
    """A line of the command for each of the words, in a random order."""
    rng.shuffle(words)
    ends = (b"\n", b"\n", b"\r\n")
    return [line_of(rng, command, [word]) + rng.choice(ends) for word in words]


# Random messages


@dataclass
class _Draft:
    """A message as it grows, with the place and the number of bytes of each length in it."""

    message: bytes
    lengths: list[tuple[int, int]] = field(default_factory=list)

    def add_sized(self, value: bytes, length_bytes: int) -> None:
        """Adds length bytes and a value."""
        self.lengths.append((len(self.message), length_bytes))
        self.message += len(value).to_bytes(length_bytes, "big") + value

    def add_eap_message(self, packet: bytes) -> None:
        """Adds length bytes and a packet, which has a length of its own."""
        self.add_sized(packet, 2)
        if len(packet) >= 4:
            self.lengths.append((len(self.message) - len(packet) + 2, 2))

    def add_element(self, tag: int, value: bytes) -> None:
        """Adds an element; the value is one that its tag can have."""
        self.message += bytes([tag])
        if tag == 0x78:
            self.add_eap_message(value)
        elif tag == 0x21 or tag >= 0x80:
            self.message += value
        else:
            self.add_sized(value, 2 if tag >= 0x70 else 1)


def _header(message_type: int) -> _Draft:
    return _Draft(bytes([0x7E, 0x00, message_type]))


def _ngksi_byte(rng: random.Random) -> bytes:
    """Byte 3: in one of six a ngKSI that names no key set, and of the others half above 7."""
    ngksi = 8 * rng.randrange(2) + (7 if rng.randrange(6) == 0 else rng.randrange(7))
    return bytes([rng.choice((0x00, 0x00, 0x70, 0x80, 0xF0, 16 * rng.randrange(16))) | ngksi])


def _abba(rng: random.Random, long: bool) -> bytes:
    """An ABBA, in one of five too short; of 255 bytes only where a message may be long."""
    if rng.randrange(5) == 0:
        return rng.randbytes(rng.randrange(2))
    if long and rng.randrange(10) == 0:
        return rng.randbytes(255)
    return rng.choice((b"\0\0", b"\0\1", rng.randbytes(2), rng.randbytes(3), rng.randbytes(9)))


def _packet(rng: random.Random, codes: tuple[int, ...], long: bool) -> bytes:
    """An EAP packet of one of these codes, which is sound in three of four."""
    code = rng.choice(codes)
    fault = rng.choice(("length", "length", "short", "code", "code", "size", *[None] * 18))
    if fault == "code":
        code = rng.choice((0, 1, 2, 3, 4, 5, 6, 128 + code, rng.randrange(256)))
    # A packet of 4 bytes is too short for a request, and a longer one too long for the others.
    if (code in (3, 4)) != (fault == "size"):
        rest = b""
    else:
        most = rng.choice((300, 1500)) if long and rng.randrange(8) == 0 else 12
        eap_type = rng.choice((1, 2, 3, 50, 253, rng.randrange(256)))
        rest = bytes([eap_type]) + rng.randbytes(rng.randrange(most))
    length = 4 + len(rest)
    if fault == "length":
        wrong = (length - 1, length + 1, 0, 4, 5, length ^ 0x100, length << 8, 0xFFFF)
        length = rng.choice(wrong) & 0xFFFF
    packet = bytes([code, rng.choice((0, 9, 255, rng.randrange(256))), *length.to_bytes(2, "big")])
    return packet[: rng.randrange(4)] if fault == "short" else packet + rest


# Tags that mean something, those at the borders of the table, and the same with one bit changed.
_TAGS = bytes.fromhex("21 38 78 00 20 22 37 39 6f 70 77 79 7f 80 81 a1 b8 f8 ff 58 18 01")


def _value(rng: random.Random, tag: int, long: bool) -> bytes:
    """A value that the tag can have; of more than 40 bytes only where a message may be long."""
    if tag >= 0x80:
        return b""
    if tag == 0x21:
        return rng.randbytes(16)
    lengths = [0, 0, 1, 2, 3, 4, 15, 16, 17, rng.randrange(40)]
    if long:
        lengths += [255, rng.choice((256, 257, 300, 600)) if tag >= 0x70 else 254]
    return rng.randbytes(rng.choice(lengths))


def _others(rng: random.Random, long: bool) -> list[tuple[int, bytes]]:
    """Elements of any tag but 78, some of them with the same tag."""
    number = rng.choice((0, 0, 1, 2, 3, 6))
    tags = [rng.choice((*_TAGS, 0x70 + rng.randrange(16), rng.randrange(256)))]
    tags += [rng.choice((tags[0], 0x38, *_TAGS)) for _ in range(number)]
    return [(tag, _value(rng, tag, long)) for tag in tags[:number] if tag != 0x78]


def _with_elements(
    rng: random.Random, draft: _Draft, elements: list[tuple[int, bytes]], long: bool
) -> _Draft:
    """The draft with these elements and others, in a random order."""
    elements = elements + _others(rng, long)
    rng.shuffle(elements)
    for tag, value in elements:
        draft.add_element(tag, value)
    return draft


def _request(rng: random.Random, long: bool) -> _Draft:
    draft = _header(_REQUEST)
    draft.message += _ngksi_byte(rng)
    draft.add_sized(_abba(rng, long), 1)
    number = rng.choice((0, 1, 1, 1, 1, 1, 1, 1, 2, 3))
    packets = [(0x78, _packet(rng, (1,), long)) for _ in range(number)]
    return _with_elements(rng, draft, packets, long)


def _result(rng: random.Random, long: bool) -> _Draft:
    draft = _header(_RESULT)
    draft.message += _ngksi_byte(rng)
    draft.add_eap_message(_packet(rng, (3, 3, 4), long))
    number = rng.choice((0, 1, 1, 1, 1, 1, 1, 2, 2, 3))
    elements = [(0x38, _abba(rng, long)) for _ in range(number)]
    if rng.randrange(4) == 0:
        elements.append((0x78, _packet(rng, (1, 3, 4), long)))
    return _with_elements(rng, draft, elements, long)


def _reject(rng: random.Random, long: bool) -> _Draft:
    number = rng.choice((0, 1, 1, 2))
    packets = [(0x78, _packet(rng, (4,), long)) for _ in range(number)]
    return _with_elements(rng, _header(_REJECT), packets, long)


_MAKERS = (_request, _result, _reject)


# Damaged messages


def _changed_byte(rng: random.Random, message: bytes, places: int | None = None) -> bytes:
    """The message with another byte at one of its first places, or at any of them."""
    place = rng.randrange(len(message) if places is None else places)
    change = rng.choice((1, 0x80, rng.randrange(1, 256)))
    return message[:place] + bytes([message[place] ^ change]) + message[place + 1 :]


def _dropped_byte(rng: random.Random, message: bytes) -> bytes:
    place = rng.randrange(len(message))
    return message[:place] + message[place + 1 :]


def _inserted_byte(rng: random.Random, message: bytes) -> bytes:
    place = rng.randrange(len(message) + 1)
    return message[:place] + bytes([rng.choice((*_TAGS, rng.randrange(256)))]) + message[place:]


def _cut_message(rng: random.Random, message: bytes) -> bytes:
    return message[: rng.randrange(len(message))]


def _cuts(message: bytes) -> Iterator[bytes]:
    """The message cut at every length."""
    for length in range(len(message)):
        yield message[:length]


def _lengths_off(draft: _Draft) -> Iterator[bytes]:
    """The message with each of its lengths one less and one more."""
    for place, length_bytes in draft.lengths:
        before, after = draft.message[:place], draft.message[place + length_bytes :]
        length = int.from_bytes(draft.message[place : place + length_bytes], "big")
        for wrong in (length - 1, length + 1):
            yield before + (wrong % 256**length_bytes).to_bytes(length_bytes, "big") + after


def _every_type(message: bytes) -> Iterator[bytes]:
    """The message with every byte as its type."""
    for message_type in range(256):
        yield message[:2] + bytes([message_type]) + message[3:]


def _shortest(rng: random.Random) -> Iterator[bytes]:
    """No byte, and messages of 1, 2 and 3 bytes."""
    yield b""
    for first in (b"\x7e", b"\x00", b"\x58", rng.randbytes(1)):
        yield first
        yield first + b"\x00"
        yield first + b"\x7e"
        yield first + b"\x00\x58"
    for message_type in (_REQUEST, _REJECT, _RESULT):
        yield _header(message_type).message


def _filled(rng: random.Random, message: bytes, length: int) -> Iterator[bytes]:
    """The message with more elements, in several ways, until it has this length."""
    missing = length - len(message)
    yield message + b"\x80" * missing
    yield message + bytes(rng.randrange(0x80, 0x100) for _ in range(missing))
    yield message + b"\x7b" + (missing - 3).to_bytes(2, "big") + rng.randbytes(missing - 3)
    full = (missing - 3) // 257
    last = missing - 3 - 257 * full
    sized = b"".join(b"\x25\xff" + rng.randbytes(255) for _ in range(full))
    yield message + sized + b"\x70" + last.to_bytes(2, "big") + rng.randbytes(last)


def _long(rng: random.Random) -> Iterator[bytes]:
    """Messages with as many bytes as there may be, and with one more or less."""
    starts = (
        "7e0056 01 02 0000 78 0008 0109000801616263",
        "7e005a 02 0004 03090004 38 02 0001",
        "7e005a 07 0004 04090004",
        "7e0058",
        "7e0058 78 0004 04090004",
    )
    for length in (_LONGEST_MESSAGE - 1, _LONGEST_MESSAGE, _LONGEST_MESSAGE + 1):
        for start in starts:
            yield from _filled(rng, bytes.fromhex(start), length)
        draft = _Draft(bytes.fromhex("7e0056 01 02 0000 78"))
        size = length - len(draft.message) - 2
        draft.add_eap_message(bytes([1, 9, *size.to_bytes(2, "big"), 50]) + rng.randbytes(size - 5))
        yield draft.message
        yield from _lengths_off(draft)
    for length in (2304, 4096, 65_535, 65_536, 65_539):
        yield bytes.fromhex("7e0058") + b"\x80" * (length - 3)


_DAMAGES: tuple[Callable[[random.Random, bytes], bytes], ...] = (
    _changed_byte,
    _dropped_byte,
    _inserted_byte,
    _cut_message,
)


def random_messages(seed: int, count: int = 5000) -> list[bytes]:
    """`count` lines of `decode`, over messages that are well formed and damaged."""
    rng = random.Random(seed)
    messages = [*_shortest(rng), *_long(rng)]
    for place in range(45):
        base = _MAKERS[place % 3](rng, False)
        messages += _cuts(base.message)
        messages += _lengths_off(base)
        messages += [_changed_byte(rng, base.message) for _ in range(8)]
        messages += [_changed_byte(rng, base.message, places=3) for _ in range(3)]
    messages += _every_type(_request(rng, False).message)
    while len(messages) < count:
        message = rng.choice(_MAKERS)(rng, True).message
        if rng.randrange(5) == 0:
            message = rng.choice(_DAMAGES)(rng, message)
        messages.append(message)
    return _lines(rng, b"decode", [plain_hex(rng, message) for message in messages])[:count]


# Random names

_PUBLIC = b"5G:mnc015.mcc234.3gppnetwork.org"
_PRIVATE = _PUBLIC + b":0123459ABEF"  # with the digits at the borders of their ranges


def _public_name(rng: random.Random) -> bytes:
    mnc, mcc = rng.randrange(1000), rng.randrange(1000)
    return b"5G:mnc%03d.mcc%03d.3gppnetwork.org" % (mnc, mcc)


def _private_name(rng: random.Random) -> bytes:
    return _public_name(rng) + b":" + bytes(rng.choices(b"0123456789ABCDEF", k=11))


def _readable(name: bytes) -> bytes:
    """The name without what would separate words, start a comment or make a field of it."""
    name = bytes(ord("x") if byte in b" \t\r\n" else byte for byte in name)
    if name.startswith(b"#"):
        name = b"x" + name[1:]
    return name[:1] + name[1:].replace(b"=", b"x")


def _names_near(rng: random.Random, name: bytes) -> Iterator[bytes]:
    """Names with one byte changed at each place, and with one more or less at each place."""
    for place, byte in enumerate(name):
        before, after = name[:place], name[place + 1 :]
        for other in (byte - 1, byte + 1, byte ^ 0x20, *b"0AFa", rng.randrange(256)):
            yield before + bytes([other]) + after
        yield before + after
        yield before + bytes([byte, byte]) + after


def _names_of_lengths(rng: random.Random) -> Iterator[bytes]:
    """Names of about the right lengths, cut or made longer at one of their ends."""
    for length in (31, 32, 33, 43, 44, 45):
        yield _private_name(rng)[:length]
        yield _private_name(rng)[-length:]
        yield (_private_name(rng) + b"0")[:length]
        yield (b"5" + _private_name(rng))[:length]
        yield _private_name(rng).ljust(length, b"0")
        yield _public_name(rng).ljust(length, b":")
        yield _public_name(rng).ljust(length, b"\0")
        yield rng.randbytes(length)
        yield bytes(rng.choices(b"0123456789ABCDEF", k=length))


def random_names(seed: int, count: int = 1200) -> list[bytes]:
    """`count` lines of `snn`, over names that are right, nearly right and quite other words."""
    rng = random.Random(seed)
    names = [*_names_near(rng, _PUBLIC), *_names_near(rng, _PRIVATE), *_names_of_lengths(rng)]
    for _ in range(10):
        public, private = _public_name(rng), _private_name(rng)
        names += (private.lower(), private.upper(), public.lower(), public.upper())
        names += (public + private[32:].lower(), private + private[32:], public + public)
    names += (rng.randbytes(rng.randrange(1, 60)) for _ in range(50))
    while len(names) < count:
        names.append(rng.choice((_public_name, _private_name))(rng))
    return _lines(rng, b"snn", [_readable(name) for name in names])[:count]


# Known answers

_PUBLIC_NETWORK = "serving network name of a public network"
_PRIVATE_NETWORK = "serving network name of a private network"

# By number, and for number 12 by what is wrong.
_REFUSED = {
    "name": "refused: number 2, layer 1 (unit), place {}: not a serving network name",
    "6": (
        "refused: number 6, layer 2 (message), place {}: "
        "not a message of 3 to 2048 bytes that starts with 7e 00"
    ),
    "7": "refused: number 7, layer 2 (message), place {}: the type is none of 56, 58 and 5a",
    "8": "refused: number 8, layer 2 (message), place {}: a part or an element is cut",
    "9": "refused: number 9, layer 2 (message), place {}: there is no EAP message",
    "10": (
        "refused: number 10, layer 3 (EAP packet), place {}: "
        "the EAP packet has another length than it says"
    ),
    "11": (
        "refused: number 11, layer 3 (EAP packet), place {}: the EAP packet's code does not fit"
    ),
    "ngKSI": "refused: number 12, layer 2 (message), place {}: the ngKSI names no key set",
    "ABBA": "refused: number 12, layer 2 (message), place {}: there is no ABBA of at least 2 bytes",
}


def _snn(shows: str, name: str, *answer: str) -> Vector:
    return Vector(shows, b"snn " + name.encode("latin-1"), tuple(map(exactly, answer)))


def _decode(shows: str, message: str, *answer: str) -> Vector:
    """A message, written as digits and blanks, with the answer to it."""
    word = message.replace(" ", "") or "-"
    return Vector(shows, b"decode " + word.encode(), tuple(map(exactly, answer)))


def _refused(shows: str, message: str, why: str, place: int) -> Vector:
    return _decode(shows, message, _REFUSED[why].format(place))


def _known_names() -> Iterator[Vector]:
    refused = _REFUSED["name"].format(0)
    public = "5G:mnc015.mcc234.3gppnetwork.org"
    yield _snn("a public network", public, _PUBLIC_NETWORK)
    yield _snn("digits 0 and 9", "5G:mnc000.mcc999.3gppnetwork.org", _PUBLIC_NETWORK)
    yield _snn("a private network", public + ":123456ABCDE", _PRIVATE_NETWORK)
    yield _snn("an identifier of 0", public + ":00000000000", _PRIVATE_NETWORK)
    yield _snn("an identifier of 9 and F", public + ":9F9F9F9F9F9", _PRIVATE_NETWORK)
    yield _snn("one small letter", public + ":123456ABCDe", refused)
    yield _snn("a letter after F", public + ":123456ABCDG", refused)
    yield _snn("an identifier of 10 digits", public + ":123456ABCD", refused)
    yield _snn("an identifier of 12 digits", public + ":123456ABCDEF", refused)
    yield _snn("no identifier after the colon", public + ":", refused)
    yield _snn("no colon", public + "0123456ABCDE", refused)
    yield _snn("two identifiers", public + ":123456ABCDE:123456ABCDE", refused)
    yield _snn("two digits of the network", "5G:mnc15.mcc234.3gppnetwork.org", refused)
    yield _snn("two digits, of the right length", "5G:mnc15.mcc2340.3gppnetwork.org", refused)
    yield _snn("a letter in the country's", "5G:mnc015.mcc23A.3gppnetwork.org", refused)
    yield _snn("a letter in the network's", "5G:mnc01A.mcc234.3gppnetwork.org", refused)
    yield _snn("a small g", "5g:mnc015.mcc234.3gppnetwork.org", refused)
    yield _snn("large letters", "5G:MNC015.MCC234.3GPPNETWORK.ORG", refused)
    yield _snn("not a dot", "5G:mnc015.mcc234x3gppnetwork.org", refused)
    yield _snn("a byte before", "x" + public, refused)
    yield _snn("a zero byte after", public + "\0", refused)
    yield _snn("a dash is a text like any other", "-", refused)
    yield _snn("so is an equals sign", "=", refused)
    yield _snn("a byte above 7E", "\xb2", refused)
    yield _snn("a long text", public * 3000, refused)


def _known_sizes() -> Iterator[Vector]:
    yield _refused("no byte", "", "6", 0)
    yield _refused("1 byte", "7e", "6", 0)
    yield _refused("2 bytes", "7e 00", "6", 0)
    yield _refused("byte 0", "7f 00 58", "6", 0)
    yield _refused("byte 1", "7e 01 58", "6", 0)
    yield _refused("byte 1, in its high half", "7e 10 58", "6", 0)
    yield _refused("byte 1, with a wrong type", "7e 01 ff", "6", 0)
    yield _refused("byte 0, with a cut part", "00 00 56", "6", 0)
    yield _refused("the type of a response", "7e 00 57", "7", 2)
    yield _refused("a type of none", "7e 00 00", "7", 2)
    yield _refused("a type of none, and an element cut", "7e 00 59 38", "7", 2)
    elements = [f"  element 80 at {place}: 0 bytes at {place + 1}" for place in range(3, 2048)]
    yield _decode(
        "2,048 bytes, most of them elements",
        "7e0058" + "80" * 2045,
        "AUTHENTICATION REJECT, 2048 bytes",
        *elements,
        "  no EAP message",
    )
    yield _refused("2,049 bytes", "7e0058" + "80" * 2046, "6", 0)
    yield _refused("2,049 bytes with a wrong type", "7e0057" + "80" * 2046, "6", 0)
    yield _refused("70,000 bytes", "7e0058" + "80" * 69_997, "6", 0)
    yield _decode(
        "2,047 bytes, most of them a value",
        "7e0058 70 07f9" + "aa" * 2041,
        "AUTHENTICATION REJECT, 2047 bytes",
        "  element 70 at 3: 2041 bytes at 6",
        "  no EAP message",
    )
    yield _refused("the same one shorter", "7e0058 70 07f9" + "aa" * 2040, "8", 3)
    yield _decode(
        "2,048 bytes, most of them a packet",
        "7e0056 00 02 0000 78 07f6 01 05 07f6 32" + "00" * 2033,
        "AUTHENTICATION REQUEST, 2048 bytes",
        "  ngKSI 0",
        "  ABBA at 4: 0000",
        "  element 78 at 7: 2038 bytes at 10",
        "  EAP request, identifier 5, 2038 bytes at 10, type 50",
    )
    yield _refused(
        "the same one longer", "7e0056 00 02 0000 78 07f7 01 05 07f7 32" + "00" * 2034, "6", 0
    )


def _known_cuts() -> Iterator[Vector]:
    yield _refused("a request without byte 3", "7e 00 56", "8", 3)
    yield _refused("a result without byte 3", "7e 00 5a", "8", 3)
    yield _refused("a request without an ABBA", "7e0056 01", "8", 4)
    yield _refused("an ABBA cut", "7e0056 01 02 00", "8", 4)
    yield _refused("an ABBA cut, and ngKSI 7", "7e0056 07 01", "8", 4)
    yield _refused("a result without an EAP message", "7e005a 01", "8", 4)
    yield _refused("one length byte of two", "7e005a 01 00", "8", 4)
    yield _refused("an EAP message cut", "7e005a 01 0004 040900", "8", 4)
    yield _refused("the first length byte counts", "7e005a 01 0104 04090004", "8", 4)
    yield _refused("a tag at the end", "7e0056 01 02 0000 78", "8", 7)
    yield _refused("a tag and one length byte of two", "7e0056 01 02 0000 78 00", "8", 7)
    yield _refused("a packet cut", "7e0056 01 02 0000 78 0008 01090008 01 6162", "8", 7)
    yield _refused("a tag 21 with 15 bytes", "7e0058 21" + "aa" * 15, "8", 3)
    yield _refused("a tag 00 at the end", "7e0058 00", "8", 3)
    yield _refused("a tag 20 one byte short", "7e0058 20 02 aa", "8", 3)
    yield _refused("a tag 6f one byte short", "7e0058 6f 02 aa", "8", 3)
    yield _refused("a tag 7f one byte short", "7e0058 7f 0002 aa", "8", 3)
    yield _refused("the second element cut", "7e0058 8a 38 01 00 38 01", "8", 7)
    yield _refused("an element cut, after a wrong packet", "7e0058 78 0004 03090005 38", "8", 10)
    yield _refused("the same in a result", "7e005a 01 0004 03090005 38", "8", 10)
    yield _refused("an element cut, no EAP message", "7e0056 01 02 0000 38 03 0000", "8", 7)
    yield _refused("an element cut, ngKSI 7", "7e005a 07 0004 03090004 38", "8", 10)
    yield _decode(
        "every kind of element",
        "7e0058 21" + "78" * 16 + "00 00 20 01 aa 22 02 aaaa 6f 00 70 0000 7f 0001 aa 80 a1 ff",
        "AUTHENTICATION REJECT, 41 bytes",
        "  element 21 at 3: 16 bytes at 4",
        "  element 00 at 20: 0 bytes at 22",
        "  element 20 at 22: 1 bytes at 24",
        "  element 22 at 25: 2 bytes at 27",
        "  element 6f at 29: 0 bytes at 31",
        "  element 70 at 31: 0 bytes at 34",
        "  element 7f at 34: 1 bytes at 37",
        "  element 80 at 38: 0 bytes at 39",
        "  element a1 at 39: 0 bytes at 40",
        "  element ff at 40: 0 bytes at 41",
        "  no EAP message",
    )


def _known_packets() -> Iterator[Vector]:
    yield _refused("no element", "7e0056 01 02 0000", "9", 7)
    yield _refused("tags 38 and 79", "7e0056 01 02 0000 79 0004 01090004 38 00", "9", 16)
    yield _refused("no EAP message, ngKSI 7, no ABBA", "7e0056 07 00", "9", 5)
    yield _refused("an empty packet in a request", "7e0056 01 02 0000 78 0000", "10", 10)
    yield _refused("a packet of 3 bytes", "7e0056 01 02 0000 78 0003 010003", "10", 10)
    yield _refused("one byte more than it has", "7e0056 01 02 0000 78 0005 0109000601", "10", 10)
    yield _refused("one byte less than it has", "7e0056 01 02 0000 78 0005 0109000401", "10", 10)
    yield _refused("256 bytes more", "7e0056 01 02 0000 78 0005 0109010501", "10", 10)
    yield _refused("an empty packet in a result", "7e005a 01 0000", "10", 6)
    yield _refused("a result's packet too long", "7e005a 01 0004 04090003", "10", 6)
    yield _refused("a reject's packet too short", "7e0058 78 0004 04090005", "10", 6)
    yield _refused("a packet after an element", "7e0058 8a 78 0004 04090003", "10", 7)
    yield _refused("a wrong length and code", "7e0058 78 0004 02090005", "10", 6)
    yield _refused(
        "a wrong length, ngKSI 7, a short ABBA", "7e0056 07 01 00 78 0005 0109000601", "10", 9
    )
    yield _refused("a response to the device", "7e0056 01 02 0000 78 0005 0209000501", "11", 10)
    yield _refused("code 0", "7e0056 01 02 0000 78 0005 0009000501", "11", 10)
    yield _refused("code 129", "7e0056 01 02 0000 78 0005 8109000501", "11", 10)
    yield _refused("a request without a type", "7e0056 01 02 0000 78 0004 01090004", "11", 10)
    yield _refused("a success in a request", "7e0056 01 02 0000 78 0004 03090004", "11", 10)
    yield _refused("a request in a result", "7e005a 01 0005 0109000501", "11", 6)
    yield _refused("code 2 in a result", "7e005a 01 0004 02090004", "11", 6)
    yield _refused("a success of 5 bytes", "7e005a 01 0005 0309000500 38 02 0000", "11", 6)
    yield _refused("a failure of 5 bytes", "7e005a 01 0005 0409000500", "11", 6)
    yield _refused("a success in a reject", "7e0058 78 0004 03090004", "11", 6)
    yield _refused("a request in a reject", "7e0058 78 0005 0109000501", "11", 6)
    yield _refused("a reject's failure of 5 bytes", "7e0058 78 0005 0409000500", "11", 6)
    yield _refused("code, ngKSI and ABBA", "7e0056 0f 00 78 0005 0209000501", "11", 8)
    yield _refused("code and ngKSI in a result", "7e005a 07 0005 0309000500", "11", 6)


def _known_key_sets() -> Iterator[Vector]:
    yield _refused("ngKSI 7", "7e0056 07 02 0000 78 0005 0109000501", "ngKSI", 3)
    yield _refused("ngKSI 15", "7e0056 0f 02 0000 78 0005 0109000501", "ngKSI", 3)
    yield _refused("the high half aside", "7e0056 a7 02 0000 78 0005 0109000501", "ngKSI", 3)
    yield _refused("ngKSI 7 in a success", "7e005a 07 0004 03090004 38 02 0000", "ngKSI", 3)
    yield _refused("ngKSI 7 and a short ABBA", "7e0056 07 01 00 78 0005 0109000501", "ngKSI", 3)
    yield _refused("ngKSI 15 and no ABBA", "7e005a 0f 0004 03090004", "ngKSI", 3)
    yield _refused("an empty ABBA", "7e0056 01 00 78 0005 0109000501", "ABBA", 4)
    yield _refused("an ABBA of 1 byte", "7e0056 01 01 00 78 0005 0109000501", "ABBA", 4)
    yield _refused(
        "a tag 38 in a request", "7e0056 01 01 00 38 02 0000 78 0005 0109000501", "ABBA", 4
    )
    yield _refused("a success without ABBA", "7e005a 00 0004 03090004", "ABBA", 10)
    yield _refused("the same with a tag 78", "7e005a 00 0004 03090004 78 0002 0000", "ABBA", 15)
    yield _refused("a success's ABBA of 1 byte", "7e005a 00 0004 03090004 38 01 00", "ABBA", 10)
    yield _refused("an empty ABBA, not first", "7e005a 00 0004 03090004 8a 38 00", "ABBA", 11)
    yield _refused(
        "the first ABBA counts", "7e005a 00 0004 03090004 38 01 00 38 02 0000", "ABBA", 10
    )


def _known_messages() -> Iterator[Vector]:
    yield _decode(
        "a request, in large digits",
        "7E0056 0E 03 0A0B0C 78 0005 01FF0005FD 8A",
        "AUTHENTICATION REQUEST, 17 bytes",
        "  ngKSI 14",
        "  ABBA at 4: 0a0b0c",
        "  element 78 at 8: 5 bytes at 11",
        "  element 8a at 16: 0 bytes at 17",
        "  EAP request, identifier 255, 5 bytes at 11, type 253",
    )
    yield _decode(
        "a high half 7",
        "7e0056 70 02 0000 21" + "00" * 16 + "38 00 78 0006 010000060300",
        "AUTHENTICATION REQUEST, 35 bytes",
        "  ngKSI 0",
        "  ABBA at 4: 0000",
        "  element 21 at 7: 16 bytes at 8",
        "  element 38 at 24: 0 bytes at 26",
        "  element 78 at 26: 6 bytes at 29",
        "  EAP request, identifier 0, 6 bytes at 29, type 3",
    )
    yield _decode(
        "an ABBA of 255 bytes",
        "7e0056 01 ff" + "00" * 255 + "78 0005 0100000532",
        "AUTHENTICATION REQUEST, 268 bytes",
        "  ngKSI 1",
        "  ABBA at 4: " + "00" * 255,
        "  element 78 at 260: 5 bytes at 263",
        "  EAP request, identifier 0, 5 bytes at 263, type 50",
    )
    yield _decode(
        "the first of two packets",
        "7e0056 01 02 0000 78 0005 0101000501 78 0005 0102000502",
        "AUTHENTICATION REQUEST, 23 bytes",
        "  ngKSI 1",
        "  ABBA at 4: 0000",
        "  element 78 at 7: 5 bytes at 10",
        "  element 78 at 15: 5 bytes at 18",
        "  EAP request, identifier 1, 5 bytes at 10, type 1",
    )
    yield _refused(
        "the first packet is wrong",
        "7e0056 01 02 0000 78 0005 0101000601 78 0005 0102000502",
        "10",
        10,
    )
    yield _decode(
        "the first of two ABBAs",
        "7e005a 03 0004 03ff0004 38 02 0102 38 03 030405",
        "AUTHENTICATION RESULT (success), 19 bytes",
        "  ngKSI 3",
        "  ABBA at 10: 0102",
        "  element 38 at 10: 2 bytes at 12",
        "  element 38 at 14: 3 bytes at 16",
        "  EAP success, identifier 255, 4 bytes at 6",
    )
    yield _decode(
        "a tag 78 in a result",
        "7e005a 02 0004 03090004 78 0001 00 38 02 0001",
        "AUTHENTICATION RESULT (success), 18 bytes",
        "  ngKSI 2",
        "  ABBA at 14: 0001",
        "  element 78 at 10: 1 bytes at 13",
        "  element 38 at 14: 2 bytes at 16",
        "  EAP success, identifier 9, 4 bytes at 6",
    )
    yield _decode(
        "a failure",
        "7e005a 00 0004 04090004",
        "AUTHENTICATION RESULT (failure), 10 bytes",
        "  EAP failure, identifier 9, 4 bytes at 6",
    )
    yield _refused("the same as a success", "7e005a 00 0004 03090004", "ABBA", 10)
    yield _decode(
        "a failure needs no key set",
        "7e005a 07 0004 04000004 38 01 00",
        "AUTHENTICATION RESULT (failure), 13 bytes",
        "  element 38 at 10: 1 bytes at 12",
        "  EAP failure, identifier 0, 4 bytes at 6",
    )
    yield _decode("the shortest", "7e0058", "AUTHENTICATION REJECT, 3 bytes", "  no EAP message")
    yield _decode(
        "a reject with two packets",
        "7e0058 78 0004 04010004 78 0004 03020005",
        "AUTHENTICATION REJECT, 17 bytes",
        "  element 78 at 3: 4 bytes at 6",
        "  element 78 at 10: 4 bytes at 13",
        "  EAP failure, identifier 1, 4 bytes at 6",
    )
    yield _refused("the first is no failure", "7e0058 78 0004 03010004 78 0004 04020004", "11", 6)


def known_answers() -> list[Vector]:
    """Names and messages, each with the answer that the documents give it."""
    makers = (
        _known_names,
        _known_sizes,
        _known_cuts,
        _known_packets,
        _known_key_sets,
        _known_messages,
    )
    return [vector for make in makers for vector in make()]
