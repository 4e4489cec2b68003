"""Scripts that programs are compared on: the vectors of the standards, random lines, and mistakes.

Everything random here follows from a seed, so that a script can be made again.
"""

import json
import random
import re
from collections.abc import Callable, Iterable, Iterator
from dataclasses import dataclass
from pathlib import Path
from typing import Any, NamedTuple

_VECTORS = Path(__file__).with_name("vectors.json")

_PARAMETERS = ("snn", "supi", "abba")
_LONGEST_PARAMETER = 65_535


# The vectors of the standards


@dataclass(frozen=True)
class Vector:
    """A script line and what its source, a standard or a document, says of its answer.

    The answer has as many lines as `answer`; each is a pattern for the whole of a line.
    """

    source: str
    line: bytes
    answer: tuple[re.Pattern[bytes], ...]


def exactly(line: str) -> re.Pattern[bytes]:
    """The pattern of this line and no other."""
    return re.compile(re.escape(line.encode()))


def _beginning(line: str, digits: int) -> re.Pattern[bytes]:
    """A line that begins so and goes on with this many digits that no standard gives."""
    return re.compile(re.escape(line.encode()) + b"[0-9a-f]{%d}" % digits)


def _hex_word(message: bytes) -> bytes:
    return message.hex().encode() or b"-"


def _sha256_vector(place: int, vector: dict[str, Any]) -> Vector:
    message = vector["text"] if "text" in vector else vector["repeat"] * vector["times"]
    return Vector(
        f"FIPS 180-4, {place}",
        b"sha256 " + _hex_word(message.encode()),
        (exactly(f"sha256 = {vector['sha256']}"),),
    )


def _hmac_vector(place: int, vector: dict[str, Any]) -> Vector:
    digits = 64 - len(vector["hmac"])  # more than 0 where the standard cuts its answer
    return Vector(
        f"RFC 4231, case {place}",
        f"hmac key={vector['key']} {vector['data']}".encode(),
        (_beginning(f"hmac = {vector['hmac']}", digits),),
    )


def _derive_vector(place: int, vector: dict[str, Any]) -> Vector:
    # None of the keys that RFC 5448 gives depends on it.
    abba = ("0000", "", "0001", "ff" * 300)[place % 4]
    fields = {
        "ck": vector["ck"],
        "ik": vector["ik"],
        "autn": vector["autn"],
        "snn": vector["network"],
        "supi": vector["identity"],
        "abba": abba,
    }
    return Vector(
        f"RFC 5448, case {place}",
        b"derive " + " ".join(f"{name}={value}" for name, value in fields.items()).encode(),
        (
            exactly("CK' || IK' = KDF(CK || IK, 20, SNN, AUTN[0..5])"),
            exactly(f"  CK'    = {vector['ckp']}"),
            exactly(f"  IK'    = {vector['ikp']}"),
            exactly("MK = PRF'(IK' || CK', \"EAP-AKA'\" || SUPI)"),
            exactly(f"  K_encr = {vector['k_encr']}"),
            exactly(f"  K_aut  = {vector['k_aut']}"),
            exactly(f"  K_re   = {vector['k_re']}"),
            exactly(f"  MSK    = {vector['msk']}"),
            exactly(f"  EMSK   = {vector['emsk']}"),
            exactly("KAUSF = first 32 bytes of EMSK"),
            exactly(f"  KAUSF  = {vector['emsk'][:64]}"),
            exactly("KSEAF = KDF(KAUSF, 6C, SNN)"),
            _beginning("  KSEAF  = ", 64),
            exactly("KAMF = KDF(KSEAF, 6D, SUPI, ABBA)"),
            _beginning("  KAMF   = ", 64),
        ),
    )


def vectors() -> list[Vector]:
    """Every vector of vectors.json."""
    known = json.loads(_VECTORS.read_text(encoding="utf-8"))
    makers: dict[str, Callable[[int, dict[str, Any]], Vector]] = {
        "fips180_4": _sha256_vector,
        "rfc4231": _hmac_vector,
        "rfc5448": _derive_vector,
    }
    return [
        make(place, vector)
        for source, make in makers.items()
        for place, vector in enumerate(known[source], 1)
    ]


def check_vectors(asked: Iterable[Vector], output: bytes) -> list[str]:
    """What in the answers to the vectors' lines is not as their sources say."""
    lines = output.split(b"\n")[:-1]
    wrong: list[str] = []
    start = 0
    for vector in asked:
        given = lines[start : start + len(vector.answer)]
        start += len(vector.answer)
        if len(given) < len(vector.answer):
            wrong.append(
                f"{vector.source}: the answer has {len(given)} lines, not {len(vector.answer)}"
            )
            continue
        for line, pattern in zip(given, vector.answer):
            if not pattern.fullmatch(line):
                wanted = re.sub(rb"\\(.)", rb"\1", pattern.pattern)  # without its escapes
                wrong.append(f"{vector.source}: {line[:200]!r} is not {wanted[:200]!r}")
                break
    if len(lines) > start:
        wrong.append(f"{len(lines) - start} lines more than the vectors ask for")
    return wrong


# Random lines

_BLANKS = (b" ", b" ", b" ", b"  ", b"\t", b" \t ", b"\r", b" \r")
_COMMENTS = (b"#", b"# a comment", b"#sha256 00", b"## key=00 key=00", b"#\xff\x00=", b"# # #")
# Bytes that separate words or end a line become letters.
_TO_WORD = bytes(ord("x") if byte in b" \t\r\n" else byte for byte in range(256))


def _near_blocks(rng: random.Random) -> int:
    """A length near the end of a block, or near the limit where the padding takes one more."""
    return max(0, 64 * rng.randrange(5) + rng.choice((-2, -1, 0, 1, 2, 55, 56, 57)))


def _lengths(rng: random.Random) -> Iterator[int]:
    """Each length from 0 to 300 once, and then those near blocks."""
    every = list(range(301))
    rng.shuffle(every)
    yield from every
    while True:
        yield _near_blocks(rng)


def _key_lengths(rng: random.Random) -> Iterator[int]:
    """Each length from 0 to 300 once, and then those near 64, above which a key is replaced."""
    every = list(range(301))
    rng.shuffle(every)
    yield from every
    while True:
        yield rng.choice((rng.randint(60, 68), rng.randint(63, 65), _near_blocks(rng)))


def _digits(rng: random.Random, message: bytes) -> bytes:
    """The bytes as digits: small, large, or of both kinds."""
    small = message.hex()
    case = rng.randrange(3)
    if case == 0:
        return small.encode()
    if case == 1 or len(small) > 1000:
        return small.upper().encode()
    return "".join(digit.upper() if rng.getrandbits(1) else digit for digit in small).encode()


def _text(rng: random.Random, length: int) -> bytes:
    """A TEXT of this length, of letters and digits or of any bytes that a word may have."""
    if rng.getrandbits(1):
        return rng.randbytes(length).translate(_TO_WORD)
    return bytes(rng.choices(b"abcxyzABCXYZ0123456789.:@-=#", k=length))


def _parameter_length(rng: random.Random) -> int:
    """The length of an input parameter of the KDF: its second byte of length begins at 256."""
    near = rng.randint(250, 260)
    return rng.choice((0, 1, rng.randint(2, 40), near, near, rng.randint(261, 600)))


def line_of(rng: random.Random, command: bytes, words: list[bytes]) -> bytes:
    """A line of these words in a random order, sometimes with a comment; it has no line end."""
    rng.shuffle(words)
    line = rng.choice((b"", b"", b"", b" ", b"\t", b"\r")) + command
    for word in words:
        line += rng.choice(_BLANKS) + word
    if rng.randrange(5) == 0:
        line += rng.choice(_BLANKS) + rng.choice(_COMMENTS)
    elif rng.randrange(5) == 0:
        line += rng.choice(_BLANKS)
    return line


def plain_hex(rng: random.Random, message: bytes) -> bytes:
    """The bytes as HEX that is a plain word."""
    return _digits(rng, message) or b"-"


def _derive_words(rng: random.Random, place: int) -> list[bytes]:
    """The fields of the `derive` at this place among all; of 50, one has a longest parameter."""
    lengths = {name: _parameter_length(rng) for name in _PARAMETERS}
    if place % 50 == 0:
        lengths[_PARAMETERS[place // 50 % 3]] = _LONGEST_PARAMETER
    return [
        b"ck=" + _digits(rng, rng.randbytes(16)),
        b"ik=" + _digits(rng, rng.randbytes(16)),
        b"autn=" + _digits(rng, rng.randbytes(16)),
        b"snn=" + _text(rng, lengths["snn"]),
        b"supi=" + _text(rng, lengths["supi"]),
        b"abba=" + _digits(rng, rng.randbytes(lengths["abba"])),
    ]


class RandomLine(NamedTuple):
    """A line with its line end, and its command; no command where nothing is to be answered."""

    command: str | None
    line: bytes


def random_lines(seed: int, count: int = 2000) -> list[RandomLine]:
    """`count` lines that can be read, and between them lines without words."""
    rng = random.Random(seed)
    messages, keys = _lengths(rng), _key_lengths(rng)
    # Of 20 lines, 7 are sha256, 7 hmac and 6 derive.
    order = [("sha256", "hmac", "derive")[place % 20 // 7] for place in range(count)]
    rng.shuffle(order)
    derived = 0
    lines: list[RandomLine] = []
    for command in order:
        if rng.randrange(8) == 0:
            blank = rng.choice((b"", b" ", b"\t\r", b"\r"))
            lines.append(RandomLine(None, blank + rng.choice((b"", *_COMMENTS)) + b"\n"))
        if command == "sha256":
            words = [plain_hex(rng, rng.randbytes(next(messages)))]
        elif command == "hmac":
            key = _digits(rng, rng.randbytes(next(keys)))
            words = [b"key=" + key, plain_hex(rng, rng.randbytes(_near_blocks(rng)))]
        else:
            words = _derive_words(rng, derived)
            derived += 1
        line = line_of(rng, command.encode(), words) + rng.choice((b"\n", b"\n", b"\r\n"))
        lines.append(RandomLine(command, line))
    return lines


# Mistakes

_GOOD_FIELDS = {
    "ck": b"c0" * 16,
    "ik": b"b0" * 16,
    "autn": b"a0" * 16,
    "snn": b"WLAN",
    "supi": b"0555444333222111",
    "abba": b"0000",
}
_NAME = b"5G:mnc015.mcc234.3gppnetwork.org"
_MESSAGE = bytes.fromhex("7e0056010200007800080109000801616263")


def _derive(*more: bytes, **changed: bytes | None) -> bytes:
    """A `derive` with fields changed, or left out where None, and with more words at its end."""
    fields = {**_GOOD_FIELDS, **changed}
    words = [name.encode() + b"=" + value for name, value in fields.items() if value is not None]
    return b" ".join([b"derive", *words, *more])


class Mistake(NamedTuple):
    """A line that cannot be read, and what is said of it after `line N: `."""

    line: bytes
    wrong: str


def _unknown_commands() -> Iterator[Mistake]:
    for name in r"""sha sha2566 SHA256 Help - = ' " \ ~ ! hmac# sha256=61""".split():
        yield Mistake(name.encode() + b" 616263", f"unknown command '{name}', try help")
    for word, shown in (
        (b"\x00", r"\x00"),
        (b"\x0b", r"\x0b"),
        (b"\x0c", r"\x0c"),
        (b"\x1f", r"\x1f"),
        (b"\x7f", r"\x7f"),
        (b"\x80", r"\x80"),
        (b"\xff", r"\xff"),
        (b"\xa0sha256", r"\xa0sha256"),
        (b"sha256\x0b61", r"sha256\x0b61"),
        (b"\xef\xbb\xbfsha256", r"\xef\xbb\xbfsha256"),
        ("détzorb".encode(), r"d\xc3\xa9tzorb"),
        (b"a" * 39, "a" * 39),
        (b"a" * 40, "a" * 40),
        (b"a" * 41, "a" * 40 + ".."),
        (b"a" * 3000, "a" * 40 + ".."),
        (b"\xff" * 40, r"\xff" * 40),
        (b"\xff" * 41, r"\xff" * 40 + ".."),
        (b"a" * 39 + b"\xfeb", "a" * 39 + r"\xfe.."),
        (b"." * 41, "." * 42),
    ):
        yield Mistake(word, f"unknown command '{shown}', try help")
    yield Mistake(b"sha1 key=zz key=zz zz zz", "unknown command 'sha1', try help")
    yield Mistake(b"help# 1", "unknown command 'help#', try help")


def _unknown_fields() -> Iterator[Mistake]:
    yield Mistake(b"sha256 key=00 61", "sha256 has no field 'key'")
    yield Mistake(b"sha256 message=61", "sha256 has no field 'message'")
    yield Mistake(b"sha256 61=", "sha256 has no field '61'")
    yield Mistake(b"sha256 -=61", "sha256 has no field '-'")
    yield Mistake(b"sha256 a#=61", "sha256 has no field 'a#'")
    yield Mistake(b"hmac Key=00 61", "hmac has no field 'Key'")
    yield Mistake(b"hmac KEY=00 61", "hmac has no field 'KEY'")
    yield Mistake(b"hmac key=00 message=61", "hmac has no field 'message'")
    yield Mistake(b"help command=sha256", "help has no field 'command'")
    yield Mistake(_derive(rand=b"00" * 16), "derive has no field 'rand'")
    yield Mistake(_derive(b"key="), "derive has no field 'key'")
    yield Mistake(b"snn name=x", "snn has no field 'name'")
    yield Mistake(b"snn snn=x", "snn has no field 'snn'")
    yield Mistake(b"snn " + _NAME + b"=", f"snn has no field '{_NAME.decode()}'")
    yield Mistake(b"snn " + _NAME + b" x=", "snn has no field 'x'")
    yield Mistake(b"snn 5G:mnc=15", "snn has no field '5G:mnc'")
    yield Mistake(b"decode message=7e0058", "decode has no field 'message'")
    yield Mistake(b"decode 7e0058 abba=0000", "decode has no field 'abba'")
    yield Mistake(b"decode 7e0058=", "decode has no field '7e0058'")
    yield Mistake(b"decode key=0 key=0", "decode has no field 'key'")
    yield Mistake(b"derive ck =00 ck=1", "unexpected word 'ck'")
    yield Mistake(b"sha256 \xe9=1", r"sha256 has no field '\xe9'")
    yield Mistake(b"sha256 '=1", "sha256 has no field '''")
    yield Mistake(b"sha256 " + b"n" * 40 + b"=1", f"sha256 has no field '{'n' * 40}'")
    yield Mistake(b"sha256 " + b"n" * 41 + b"=1", f"sha256 has no field '{'n' * 40}..'")
    yield Mistake(b"sha256 n=" + b"0" * 50, "sha256 has no field 'n'")
    # What stands further left is told, whatever it is.
    yield Mistake(b"hmac kex=1 key=00 key=00", "hmac has no field 'kex'")
    yield Mistake(b"hmac key=00 key=00 kex=1", "key stands twice")
    yield Mistake(b"sha256 61 62 key=00", "unexpected word '62'")
    yield Mistake(b"sha256 61 key=00 62", "sha256 has no field 'key'")
    yield Mistake(b"sha256 zz key=00", "sha256 has no field 'key'")
    yield Mistake(b"decode 7 key=00", "decode has no field 'key'")
    yield Mistake(b"decode 7e 00 key=00", "unexpected word '00'")
    yield Mistake(b"hmac kex=1", "hmac has no field 'kex'")


def _fields_twice() -> Iterator[Mistake]:
    yield Mistake(b"hmac key=00 key=00 61", "key stands twice")
    yield Mistake(b"hmac key= key= 61", "key stands twice")
    yield Mistake(b"hmac key=zz key=zz", "key stands twice")
    yield Mistake(b"hmac key=00 61 key=", "key stands twice")
    yield Mistake(b"hmac key=00 key=00 61 62", "key stands twice")
    yield Mistake(b"hmac key=00 61 62 key=00", "unexpected word '62'")
    for name, value in _GOOD_FIELDS.items():
        yield Mistake(_derive(name.encode() + b"=" + value), f"{name} stands twice")
        yield Mistake(b"derive %b= %b=" % (name.encode(), name.encode()), f"{name} stands twice")
    yield Mistake(b"derive snn=a supi=b supi=c snn=d", "supi stands twice")


def _unexpected_words() -> Iterator[Mistake]:
    yield Mistake(b"sha256 61 62", "unexpected word '62'")
    yield Mistake(b"sha256 - -", "unexpected word '-'")
    yield Mistake(b"sha256 zz yy", "unexpected word 'yy'")
    yield Mistake(b"sha256 61 =62", "unexpected word '=62'")
    yield Mistake(b"sha256 61 =", "unexpected word '='")
    yield Mistake(b"sha256 61 =a=b", "unexpected word '=a=b'")
    yield Mistake(b"sha256 61\x0b 62\x0c", r"unexpected word '62\x0c'")
    yield Mistake(b"sha256\r61\r62", "unexpected word '62'")
    yield Mistake(b"sha256 61 6#2", "unexpected word '6#2'")
    yield Mistake(b"hmac key=00 61 62", "unexpected word '62'")
    yield Mistake(b"hmac 61 62", "unexpected word '62'")
    yield Mistake(b"hmac key =00 61", "unexpected word '=00'")
    yield Mistake(b"help help", "unexpected word 'help'")
    yield Mistake(b"help -", "unexpected word '-'")
    yield Mistake(b"help =", "unexpected word '='")
    yield Mistake(b"help \xff\x01", r"unexpected word '\xff\x01'")
    yield Mistake(b"derive 00", "unexpected word '00'")
    yield Mistake(b"snn a b", "unexpected word 'b'")
    yield Mistake(b"snn - -", "unexpected word '-'")
    yield Mistake(b"snn = =", "unexpected word '='")
    yield Mistake(b"snn " + _NAME + b" " + _NAME, f"unexpected word '{_NAME.decode()}'")
    yield Mistake(b"decode 7e0058 7e0058", "unexpected word '7e0058'")
    yield Mistake(b"decode 7e 00 58", "unexpected word '00'")
    yield Mistake(b"decode - -", "unexpected word '-'")
    yield Mistake(b"decode 7e005 x", "unexpected word 'x'")
    yield Mistake(_derive(b"-"), "unexpected word '-'")
    yield Mistake(_derive(b"=", ck=b"zz"), "unexpected word '='")
    for length in (39, 40, 41, 65_536):
        shown = "0" * min(length, 40) + (".." if length > 40 else "")
        yield Mistake(b"sha256 61 " + b"0" * length, f"unexpected word '{shown}'")


def _missing_values() -> Iterator[Mistake]:
    yield Mistake(b"sha256", "message is missing")
    yield Mistake(b" \t sha256 \r", "message is missing")
    yield Mistake(b"sha256 #61", "message is missing")
    yield Mistake(b"sha256 # 61", "message is missing")
    yield Mistake(b"hmac", "key is missing")
    yield Mistake(b"hmac 61", "key is missing")
    yield Mistake(b"hmac zz", "key is missing")
    yield Mistake(b"hmac key", "key is missing")
    yield Mistake(b"hmac key=00", "message is missing")
    yield Mistake(b"hmac key=", "message is missing")
    yield Mistake(b"hmac key=00 #61", "message is missing")
    yield Mistake(b"hmac #key=00 61", "key is missing")
    yield Mistake(b"snn", "name is missing")
    yield Mistake(b"snn #" + _NAME, "name is missing")
    yield Mistake(b"\tsnn\r", "name is missing")
    yield Mistake(b"decode", "message is missing")
    yield Mistake(b"decode # 7e0058", "message is missing")
    yield Mistake(b"derive", "ck is missing")
    for name in _GOOD_FIELDS:
        yield Mistake(_derive(**{name: None}), f"{name} is missing")
    names = list(_GOOD_FIELDS)
    for first, second in zip(names, names[1:]):
        yield Mistake(_derive(**{first: None, second: None}), f"{first} is missing")
    yield Mistake(_derive(ck=None, abba=b"0"), "ck is missing")
    yield Mistake(_derive(b"#abba=0000", abba=None), "abba is missing")


def _wrong_digits() -> Iterator[Mistake]:
    for stranger in b"/:@G`gzZ-+.,_'\"\\#\x00\x0b\x0c\x7f\x80\xb2\xff":
        yield Mistake(
            b"sha256 61" + bytes([stranger]) + b"62", "message has no hexadecimal digit at place 3"
        )
    yield Mistake(b"sha256 g", "message has no hexadecimal digit at place 1")
    yield Mistake(b"sha256 61g", "message has no hexadecimal digit at place 3")
    yield Mistake(b"sha256 6g6h", "message has no hexadecimal digit at place 2")
    yield Mistake(b"sha256 0x61", "message has no hexadecimal digit at place 2")
    yield Mistake(b"sha256 --", "message has no hexadecimal digit at place 1")
    yield Mistake(b"sha256 -61", "message has no hexadecimal digit at place 1")
    yield Mistake(b"sha256 61-", "message has no hexadecimal digit at place 3")
    yield Mistake(b"sha256 -#", "message has no hexadecimal digit at place 1")
    yield Mistake(b"sha256 =", "message has no hexadecimal digit at place 1")
    yield Mistake(b"sha256 =61", "message has no hexadecimal digit at place 1")
    yield Mistake(b"sha256 =a=b", "message has no hexadecimal digit at place 1")
    yield Mistake(b"sha256 ==", "message has no hexadecimal digit at place 1")
    yield Mistake(b"sha256 sha256", "message has no hexadecimal digit at place 1")
    yield Mistake(b"sha256 \xd9\xa1\xd9\xa2", "message has no hexadecimal digit at place 1")
    yield Mistake(
        b"sha256 " + b"0" * 100_000 + b"g", "message has no hexadecimal digit at place 100001"
    )
    yield Mistake(b"decode 7g0058", "message has no hexadecimal digit at place 2")
    yield Mistake(b"decode 7e005g", "message has no hexadecimal digit at place 6")
    yield Mistake(b"decode 7e0x5", "message has no hexadecimal digit at place 4")
    yield Mistake(b"decode =7e0058", "message has no hexadecimal digit at place 1")
    yield Mistake(b"decode --", "message has no hexadecimal digit at place 1")
    yield Mistake(
        b"decode " + b"7e" * 3000 + b"-", "message has no hexadecimal digit at place 6001"
    )
    yield Mistake(b"hmac key=- 61", "key has no hexadecimal digit at place 1")
    yield Mistake(b"hmac key=0g 6g", "key has no hexadecimal digit at place 2")
    yield Mistake(b"hmac 6g key=0g", "key has no hexadecimal digit at place 2")
    yield Mistake(b"hmac key=0g", "key has no hexadecimal digit at place 2")
    yield Mistake(b"hmac key==00 61", "key has no hexadecimal digit at place 1")
    yield Mistake(b"hmac key=00= 61", "key has no hexadecimal digit at place 3")
    yield Mistake(b"hmac key=00 =61", "message has no hexadecimal digit at place 1")
    yield Mistake(b"hmac key=# 61", "key has no hexadecimal digit at place 1")
    yield Mistake(b"hmac key=0 6g", "key has an odd number of digits")
    for name in ("ck", "ik", "autn", "abba"):
        long = b"00" * 16 + b"x"
        yield Mistake(_derive(**{name: b"-"}), f"{name} has no hexadecimal digit at place 1")
        yield Mistake(_derive(**{name: long}), f"{name} has no hexadecimal digit at place 33")
    yield Mistake(_derive(ck=b"q", ik=b"q"), "ck has no hexadecimal digit at place 1")
    yield Mistake(_derive(ik=b"q", ck=b"c0"), "ck has 1 bytes, not 16")
    yield Mistake(
        _derive(abba=b"00" * 65_536 + b"x"), "abba has no hexadecimal digit at place 131073"
    )


def _odd_digits() -> Iterator[Mistake]:
    yield Mistake(b"sha256 6", "message has an odd number of digits")
    yield Mistake(b"sha256 616", "message has an odd number of digits")
    yield Mistake(b"sha256 " + b"F" * 129, "message has an odd number of digits")
    yield Mistake(b"decode 7", "message has an odd number of digits")
    yield Mistake(b"decode 7e005", "message has an odd number of digits")
    yield Mistake(b"decode " + b"8" * 4097, "message has an odd number of digits")
    yield Mistake(b"hmac key=0 61", "key has an odd number of digits")
    yield Mistake(b"hmac key=0 6", "key has an odd number of digits")
    yield Mistake(b"hmac key=0", "key has an odd number of digits")
    yield Mistake(b"hmac key=00 6", "message has an odd number of digits")
    for name in ("ck", "ik", "autn", "abba"):
        yield Mistake(_derive(**{name: b"0"}), f"{name} has an odd number of digits")
        yield Mistake(_derive(**{name: b"0" * 33}), f"{name} has an odd number of digits")
    yield Mistake(_derive(abba=b"0" * 131_073), "abba has an odd number of digits")


def _wrong_sizes() -> Iterator[Mistake]:
    for name in ("ck", "ik", "autn"):
        for size in (0, 1, 15, 17, 32, 65_536):
            yield Mistake(_derive(**{name: b"00" * size}), f"{name} has {size} bytes, not 16")
    yield Mistake(_derive(ck=b"", ik=b""), "ck has 0 bytes, not 16")
    yield Mistake(_derive(autn=b"", snn=None), "autn has 0 bytes, not 16")
    yield Mistake(_derive(ck=None, ik=b""), "ck is missing")
    yield Mistake(_derive(ck=b"", ik=None), "ck has 0 bytes, not 16")
    for name, byte in (("snn", b"n"), ("supi", b"\xff"), ("abba", b"0f")):
        for size in (65_536, 70_000):
            wrong = f"{name} has {size} bytes, more than 65535"
            yield Mistake(_derive(**{name: byte * size}), wrong)
    yield Mistake(_derive(snn=b"n" * 65_536, supi=None), "snn has 65536 bytes, more than 65535")
    yield Mistake(_derive(snn=None, supi=b"s" * 65_536), "snn is missing")
    yield Mistake(_derive(snn=b"n" * 65_536, abba=b"0"), "snn has 65536 bytes, more than 65535")
    yield Mistake(_derive(autn=b"0", snn=b"n" * 65_536), "autn has an odd number of digits")
    yield Mistake(
        b"derive abba=0 supi= snn= autn=00 ik=0g ck=" + b"c" * 32,
        "ik has no hexadecimal digit at place 2",
    )


# Lines that look like mistakes and can be read, or are passed over in silence.
_NO_MISTAKES = (
    b"",
    b"\r",
    b"\t \r \r",
    b"#",
    b"  # sha1",
    b"\t#sha1 =",
    b"sha256 -",
    b"sha256\t-\r# - -",
    b"sha256 61 #62",
    b"sha256 61 # key=00 62",
    b"\rsha256\r61\r\r",
    b"sha256 aBcDeF",
    b"hmac key= -",
    b"hmac - key=",
    b"hmac 61 key=00 #key=00",
    b"snn -",
    b"snn =",
    b"snn =a=b # c",
    b"snn x#",
    b"snn \x00\x0b\xff'\\",
    b"snn " + _NAME,
    b"decode -",
    b"decode 7E0058 # 7E0058",
    b"\tdecode\r7e00588a8B\r",
    b"help",
    b" help # me",
    _derive(snn=b"", supi=b"", abba=b""),
    _derive(snn=b"a=b=c", supi=b"#", abba=b"Ff"),
    _derive(snn=b"=", supi=b"-", abba=b"00"),
    _derive(snn=b"\x00\x0b\x0c\x7f\xff", supi="é'\\".encode()),
    _derive(snn=b"n" * 65_535, supi=b"s" * 65_535, abba=b"0f" * 65_535),
)


def written_mistakes() -> list[Mistake]:
    """Lines with every kind of mistake, and what is to be said of each."""
    makers = (
        _unknown_commands,
        _unknown_fields,
        _fields_twice,
        _unexpected_words,
        _missing_values,
        _wrong_digits,
        _odd_digits,
        _wrong_sizes,
    )
    return [mistake for make in makers for mistake in make()]


def _swapped_words(rng: random.Random, line: bytes) -> bytes:
    words = line.split(b" ")
    first, second = rng.randrange(len(words)), rng.randrange(len(words))
    words[first], words[second] = words[second], words[first]
    return b" ".join(words)


def _doubled_word(rng: random.Random, line: bytes) -> bytes:
    words = line.split(b" ")
    words.insert(rng.randrange(len(words) + 1), rng.choice(words))
    return b" ".join(words)


def _dropped_word(rng: random.Random, line: bytes) -> bytes:
    words = line.split(b" ")
    del words[rng.randrange(len(words))]
    return b" ".join(words)


def _random_byte(rng: random.Random) -> bytes:
    """A byte, often one that means something on a line; never a line feed: a line stays one."""
    if rng.getrandbits(1):
        return bytes([rng.choice(b"=#- \t\r'09afgAFG\x00\xff")])
    byte = rng.randrange(255)
    return bytes([byte + (byte >= 0x0A)])


def _inserted_byte(rng: random.Random, line: bytes) -> bytes:
    place = rng.randrange(len(line) + 1)
    return line[:place] + _random_byte(rng) + line[place:]


def _changed_byte(rng: random.Random, line: bytes) -> bytes:
    place = rng.randrange(len(line))
    return line[:place] + _random_byte(rng) + line[place + 1 :]


def _dropped_byte(rng: random.Random, line: bytes) -> bytes:
    place = rng.randrange(len(line))
    return line[:place] + line[place + 1 :]


def _cut_line(rng: random.Random, line: bytes) -> bytes:
    return line[: rng.randrange(len(line))]


_DAMAGES = (
    _swapped_words,
    _doubled_word,
    _dropped_word,
    _inserted_byte,
    _changed_byte,
    _dropped_byte,
    _cut_line,
)


def _damaged_lines(rng: random.Random, count: int) -> Iterator[bytes]:
    """Lines that could be read before up to three things were changed on each. Some still can."""
    for _ in range(count):
        kind = rng.randrange(5)
        if kind == 0:
            line = b"sha256 " + plain_hex(rng, rng.randbytes(rng.randrange(40)))
        elif kind == 1:
            key, message = rng.randbytes(rng.randrange(40)), rng.randbytes(rng.randrange(40))
            line = b"hmac key=" + _digits(rng, key) + b" " + plain_hex(rng, message)
        elif kind == 2:
            line = b"snn " + rng.choice((_NAME, _NAME + b":123456ABCDE"))
        elif kind == 3:
            line = b"decode " + plain_hex(rng, _MESSAGE)
        else:
            line = _derive()
        for _ in range(rng.choice((1, 1, 2, 3))):
            if line:
                line = rng.choice(_DAMAGES)(rng, line)
        yield line


def mistakes(seed: int = 1, damaged: int = 1000) -> bytes:
    """A script of lines that cannot be read and a few that can; the last has no line feed."""
    rng = random.Random(seed)
    lines = [mistake.line for mistake in written_mistakes()]
    lines += _NO_MISTAKES
    lines += _damaged_lines(rng, damaged)
    rng.shuffle(lines)
    ends = (b"\n", b"\n", b"\n", b"\r\n", b" \n", b"\t\r\n")
    return b"".join(line + rng.choice(ends) for line in lines) + b"sha256 6"


# Whole scripts at the edges


class Edge(NamedTuple):
    """A short script, what is answered and the status."""

    name: str
    script: bytes
    answer: bytes
    status: int


_NOTHING_HASHED = b"sha256 = e3b0c44298fc1c149afbf4c8996fb92427ae41e4649b934ca495991b7852b855\n"
_LINE_1 = b"line 1: message is missing\n"
_LINE_2 = b"line 2: message is missing\n"
_LINE_3 = b"line 3: message is missing\n"
_ZERO_BYTES = (
    b"line 1: unknown command '\\x00', try help\n"
    b"line 2: message has no hexadecimal digit at place 1\n"
)
_WORD_AFTER = b"line 1: unexpected word 'sha256'\n"
_LINE_100000 = b"line 100000: unknown command 'x', try help\n"


def edges() -> list[Edge]:
    """Scripts whose ends, line ends, comments and numbers of lines are peculiar."""
    every_line = b"".join(
        b"line %d: unknown command 'x', try help\n" % number for number in range(1, 20_001)
    )
    return [
        Edge("empty", b"", b"", 0),
        Edge("only a line feed", b"\n", b"", 0),
        Edge("only a carriage return", b"\r", b"", 0),
        Edge("only blanks and comments", b" \t\r\n# sha256\n  #x\n\r\n#", b"", 0),
        Edge("a long comment", b"#" + b" sha1" * 200_000, b"", 0),
        Edge("no line feed at the end", b"sha256 -", _NOTHING_HASHED, 0),
        Edge("a comment at the end", b"sha256 - #", _NOTHING_HASHED, 0),
        Edge("a mistake at the end", b"sha256 -\nsha256", _NOTHING_HASHED + _LINE_2, 1),
        Edge("a mistake at the start", b"sha256\nsha256 -\n", _LINE_1 + _NOTHING_HASHED, 1),
        Edge("line ends CR LF", b"sha256 -\r\n\r\nsha256\r\n", _NOTHING_HASHED + _LINE_3, 1),
        Edge("a carriage return ends no line", b"sha256 -\rsha256 -", _WORD_AFTER, 1),
        Edge("zero bytes", b"\0\nsha256 -\0\n", _ZERO_BYTES, 1),
        Edge("many empty lines", b"\n" * 99_999 + b"x", _LINE_100000, 1),
        Edge("many mistakes", b"x\n" * 20_000, every_line, 1),
    ]
