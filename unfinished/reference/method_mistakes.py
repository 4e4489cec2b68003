"""Lines about EAP methods that cannot be read: written ones with what is said of them, and damaged
ones, which follow from a seed.
"""

import random
from collections.abc import Iterator

from scripts import DAMAGES, Mistake, Vector, said

_SIXTEEN = b"00" * 16
_TEST_FIELDS = {"key": _SIXTEEN, "sequence": b"0"}
_GOOD_FIELDS = {
    "rand": _SIXTEEN,
    "autn": _SIXTEEN,
    "outcome": b"good",
    "res": _SIXTEEN,
    "ck": _SIXTEEN,
    "ik": _SIXTEEN,
}
_STALE_FIELDS = {"rand": _SIXTEEN, "autn": _SIXTEEN, "outcome": b"stale", "auts": b"00" * 14}
_GRANTED_FIELDS = {"identifier": b"9", "outcome": b"granted", "at": b"0"}
_PROCESS_FIELDS = {"snn": b"WLAN", "supi": b"234150999999999", "suci": b"suci"}
_PACKET = b"0109000c320500000d010000"

_NO_METHOD = "no method is started, use card or scripted"
_NO_ROW = "no row can be added, only to a recorded card or scripted method not yet used"
_NO_SEQUENCE = "sequence is not a number from 0 to 281474976710655"
_NO_IDENTIFIER = "identifier is not a number from 0 to 255"
_NO_PLACE = "at is not a number from 0 to 65535"


def _line(start: bytes, fields: dict[str, bytes], *more: bytes, **changed: bytes | None) -> bytes:
    """A line with fields changed, or left out where None, and with more words at its end."""
    values = {**fields, **changed}
    words = [name.encode() + b"=" + value for name, value in values.items() if value is not None]
    return b" ".join([start, *words, *more])


def _test(*more: bytes, **changed: bytes | None) -> bytes:
    return _line(b"card test", _TEST_FIELDS, *more, **changed)


def _good(*more: bytes, **changed: bytes | None) -> bytes:
    return _line(b"row", _GOOD_FIELDS, *more, **changed)


def _stale(*more: bytes, **changed: bytes | None) -> bytes:
    return _line(b"row", _STALE_FIELDS, *more, **changed)


def _granted(*more: bytes, **changed: bytes | None) -> bytes:
    return _line(b"row", _GRANTED_FIELDS, *more, **changed)


def _processed(*more: bytes, **changed: bytes | None) -> bytes:
    return _line(b"process", _PROCESS_FIELDS, *(more or (_PACKET,)), **changed)


_Lines = Iterator[Mistake | Vector]

_RECORDED_STARTS = said("a recorded card", b"card recorded", "EAP-AKA' with a recorded card")
_SCRIPTED_STARTS = said(
    "a scripted method", b"scripted store=00", "scripted method, 1 bytes of store"
)


def _without_method() -> _Lines:
    for line in (b"row", b"process", b"clear", b"block"):
        yield Mistake(line, _NO_METHOD)
        yield Mistake(line + b" x y= y=", _NO_METHOD)
    yield Mistake(_good(), _NO_METHOD)
    yield Mistake(_granted(), _NO_METHOD)
    yield Mistake(_processed(), _NO_METHOD)
    yield Mistake(_test(key=None), "key is missing")
    yield Mistake(b"scripted", "store is missing")
    yield Mistake(b"block", _NO_METHOD)


def _wrong_starts() -> _Lines:
    kind = "kind is not one of test, recorded"
    yield Mistake(b"card", "kind is missing")
    yield Mistake(b"card key=" + _SIXTEEN, "kind is missing")
    yield Mistake(b"card key=0", "kind is missing")
    yield Mistake(b"card key=0 x=1", "card has no field 'x'")
    yield Mistake(b"card kind=test", "card has no field 'kind'")
    yield Mistake(b"card test=1", "card has no field 'test'")
    yield Mistake(b"card Key=00 test", "card has no field 'Key'")
    for word in (b"Test", b"tests", b"tes", b"-", b"=", b"=test", b"\xff", b"out", b"test#"):
        yield Mistake(b"card " + word, kind)
    yield Mistake(b"card x key=0 sequence=x", kind)
    yield Mistake(b"card test recorded", "unexpected word 'recorded'")
    yield Mistake(b"card x y", "unexpected word 'y'")
    yield Mistake(b"card recorded key=0", "key does not go with recorded")
    yield Mistake(b"card recorded key=", "key does not go with recorded")
    yield Mistake(b"card sequence=x recorded", "sequence does not go with recorded")
    yield Mistake(b"card sequence=1 key=1 recorded", "key does not go with recorded")
    yield Mistake(b"card recorded key=1 key=1", "key stands twice")
    yield Mistake(b"card test", "key is missing")
    yield Mistake(_test(key=None, sequence=b"x"), "key is missing")
    yield Mistake(_test(sequence=None), "sequence is missing")
    yield Mistake(_test(key=b"-"), "key has no hexadecimal digit at place 1")
    yield Mistake(_test(key=b"0"), "key has an odd number of digits")
    yield Mistake(_test(key=b"", sequence=b""), "key has 0 bytes, not 16")
    yield Mistake(_test(key=_SIXTEEN + b"00"), "key has 17 bytes, not 16")
    yield Mistake(_test(b"sequence=0"), "sequence stands twice")
    for number in (
        *(b"", b"-", b"-1", b"+1", b"x", b"1x", b"0x1", b"1.0", b"1_0", b"1,0", b"1=", b"1#"),
        *(b"281474976710656", b"999999999999999", b"1000000000000000", b"18446744073709551616"),
        *(b"340282366920938463463374607431768211456", b"9" * 5000),
        *(b"\xd9\xa1", b"\xb2", b"1\x0b"),
        *(b"0" * 5000 + b"281474976710656", b"0" * 5000 + b"x"),
    ):
        yield Mistake(_test(sequence=number), _NO_SEQUENCE)
    for number in (b"0", b"281474976710655", b"000", b"0" * 5000 + b"281474976710655"):
        yield said("a number", _test(sequence=number), "EAP-AKA' with a test card")
    yield Mistake(b"scripted", "store is missing")
    yield Mistake(b"scripted 00", "unexpected word '00'")
    yield Mistake(b"scripted store=- x=", "scripted has no field 'x'")
    yield Mistake(b"scripted store=-", "store has no hexadecimal digit at place 1")
    yield Mistake(b"scripted store=000", "store has an odd number of digits")
    yield Mistake(b"scripted store= store=", "store stands twice")
    long = b"scripted store=" + b"00" * 65_535
    yield said("a long store", long, "scripted method, 65535 bytes of store")
    yield Mistake(long + b"00", "store has 65536 bytes, more than 65535")
    yield Mistake(long + b"0", "store has an odd number of digits")


def _wrong_recorded_rows() -> _Lines:
    outcome = "outcome is not one of out, wrong, stale, good"
    yield _RECORDED_STARTS
    yield Mistake(b"row", "rand is missing")
    yield Mistake(b"row 00", "unexpected word '00'")
    yield Mistake(b"row identifier=1", "row has no field 'identifier'")
    yield Mistake(_good(at=b"0"), "row has no field 'at'")
    yield Mistake(_good(b"-"), "unexpected word '-'")
    yield Mistake(_good(b"rand="), "rand stands twice")
    yield Mistake(_good(b"auts="), "auts does not go with good")
    for name in ("rand", "autn", "res", "ck", "ik"):
        yield Mistake(_good(**{name: None}), f"{name} is missing")
        yield Mistake(_good(**{name: b""}), f"{name} has 0 bytes, not 16")
        yield Mistake(_good(**{name: b"00" * 15}), f"{name} has 15 bytes, not 16")
        yield Mistake(_good(**{name: b"0" * 33}), f"{name} has an odd number of digits")
        yield Mistake(_good(**{name: b"0g"}), f"{name} has no hexadecimal digit at place 2")
    yield Mistake(_good(outcome=None), "outcome is missing")
    yield Mistake(_good(outcome=None, res=b"0", auts=b"0"), "outcome is missing")
    for word in (b"", b"Good", b"goods", b"go-on", b"granted", b"refuse", b"-", b"0", b"good="):
        yield Mistake(_good(outcome=word), outcome)
    yield Mistake(_good(outcome=b"x", auts=b"0"), outcome)
    yield Mistake(_good(outcome=b"x", autn=b"0"), "autn has an odd number of digits")
    for word in (b"out", b"wrong"):
        shown = word.decode()
        yield Mistake(_stale(outcome=word), f"auts does not go with {shown}")
        yield Mistake(_good(outcome=word), f"res does not go with {shown}")
        yield Mistake(_good(outcome=word, res=None), f"ck does not go with {shown}")
        yield Mistake(_good(outcome=word, res=None, ck=None), f"ik does not go with {shown}")
        yield Mistake(_stale(outcome=word, auts=b"x"), f"auts does not go with {shown}")
    yield Mistake(_good(outcome=b"stale"), "auts is missing")
    yield Mistake(_good(outcome=b"stale", auts=b"0"), "auts has an odd number of digits")
    yield Mistake(_good(outcome=b"stale", auts=b"00" * 14), "res does not go with stale")
    yield Mistake(_stale(outcome=b"good"), "auts does not go with good")
    for size in (0, 13, 15, 16):
        yield Mistake(_stale(auts=b"00" * size), f"auts has {size} bytes, not 14")
    yield said("mistakes add no row", _good(), "row 1")
    yield said("a stale row", _stale(), "row 2")
    for word in (b"out", b"wrong"):
        line = _stale(outcome=word, auts=None)
        yield said("a row", line, "row 3" if word == b"out" else "row 4")
    yield Mistake(_processed(suci=None), "suci is missing")
    yield Mistake(b"clear x", "unexpected word 'x'")
    yield said("what cannot be read uses nothing", _good(), "row 5")
    refused = "refused: not an EAP request of type 50 with 5 to 2048 bytes"
    yield said("a use", _processed(b"-"), refused)
    yield Mistake(_good(), _NO_ROW)
    yield Mistake(b"row x x=", _NO_ROW)
    yield _RECORDED_STARTS
    yield said("a new card has no rows", _good(), "row 1")
    yield said("a use", b"block", "no block")
    yield Mistake(_good(), _NO_ROW)
    yield _RECORDED_STARTS
    yield said("a use", b"clear", "cleared")
    yield Mistake(_good(), _NO_ROW)
    yield said("a test card", _test(), "EAP-AKA' with a test card")
    yield Mistake(_good(), _NO_ROW)
    yield Mistake(b"row x x=", _NO_ROW)
    yield Mistake(b"card recorded x", "unexpected word 'x'")
    yield Mistake(_good(), _NO_ROW)


def _wrong_scripted_rows() -> _Lines:
    outcome = "outcome is not one of go-on, granted, refuse"
    yield _SCRIPTED_STARTS
    yield Mistake(b"row", "identifier is missing")
    yield Mistake(_granted(rand=_SIXTEEN), "row has no field 'rand'")
    yield Mistake(_good(), "row has no field 'rand'")
    yield Mistake(_granted(b"0"), "unexpected word '0'")
    yield Mistake(_granted(b"at=1"), "at stands twice")
    for number in (b"", b"256", b"-1", b"x", b"1000", b"99999999999999999999", b"0x9"):
        yield Mistake(_granted(identifier=number), _NO_IDENTIFIER)
    for number in (b"", b"65536", b"-1", b"x", b"0065536", b"4294967296", b"18446744073709551616"):
        yield Mistake(_granted(at=number), _NO_PLACE)
    for word in (b"", b"go", b"goon", b"go_on", b"Go-on", b"good", b"out", b"refused", b"2"):
        yield Mistake(_granted(outcome=word), outcome)
    yield Mistake(_granted(identifier=None), "identifier is missing")
    yield Mistake(_granted(identifier=b"x", outcome=b"x"), _NO_IDENTIFIER)
    yield Mistake(_granted(outcome=None, at=b"x"), "outcome is missing")
    yield Mistake(_granted(at=None), "at is missing")
    yield Mistake(_granted(outcome=b"go-on"), "at does not go with go-on")
    yield Mistake(_granted(outcome=b"refuse", at=b"x"), "at does not go with refuse")
    yield said("mistakes add no row", _granted(), "row 1")
    yield said("a row", _granted(outcome=b"go-on", at=None), "row 2")
    yield said("a row", _granted(identifier=b"00255", outcome=b"refuse", at=None), "row 3")
    refused = "refused: not an EAP request of type 253 with 5 to 2048 bytes"
    yield said("a use", _processed(), refused)
    yield Mistake(_granted(), _NO_ROW)
    yield _SCRIPTED_STARTS
    yield said("a use", b"clear", "cleared")
    yield Mistake(_granted(), _NO_ROW)


def _wrong_uses() -> _Lines:
    yield said("a test card", _test(), "EAP-AKA' with a test card")
    yield Mistake(b"process", "snn is missing")
    yield Mistake(b"process " + _PACKET, "snn is missing")
    yield Mistake(b"process packet=00", "process has no field 'packet'")
    yield Mistake(_processed(abba=b"0000"), "process has no field 'abba'")
    yield Mistake(_processed(_PACKET, _PACKET), f"unexpected word '{_PACKET.decode()}'")
    yield Mistake(_processed(_PACKET, b"snn="), "snn stands twice")
    for name in ("snn", "supi", "suci"):
        yield Mistake(_processed(**{name: None}), f"{name} is missing")
        yield Mistake(_processed(b"0g", **{name: None}), f"{name} is missing")
    yield Mistake(_line(b"process", _PROCESS_FIELDS), "packet is missing")
    yield Mistake(_processed(b"#00"), "packet is missing")
    yield Mistake(_processed(b"0g"), "packet has no hexadecimal digit at place 2")
    yield Mistake(_processed(b"=00"), "packet has no hexadecimal digit at place 1")
    yield Mistake(_processed(b"000"), "packet has an odd number of digits")
    for name, most in (("snn", 44), ("supi", 128), ("suci", 255)):
        for size in (most + 1, 65_536):
            wrong = f"{name} has {size} bytes, more than {most}"
            yield Mistake(_processed(**{name: b"x" * size}), wrong)
            yield Mistake(_processed(b"0", **{name: b"=" * size}), wrong)
    yield Mistake(_processed(suci=b""), "suci has 0 bytes, fewer than 1")
    yield Mistake(_processed(b"0", suci=b""), "suci has 0 bytes, fewer than 1")
    yield Mistake(_processed(suci=b"", supi=None), "supi is missing")
    yield Mistake(_processed(suci=b"", snn=b"x" * 45), "snn has 45 bytes, more than 44")
    for word in (b"clear", b"block"):
        shown = word.decode()
        yield Mistake(word + b" x", "unexpected word 'x'")
        yield Mistake(word + b" -", "unexpected word '-'")
        yield Mistake(word + b" x=1", f"{shown} has no field 'x'")
        yield Mistake(word + b" = x=1", "unexpected word '='")
    yield said("a use", b"block", "no block")
    yield Mistake(b"card", "kind is missing")
    yield said("the method stays", b"block", "no block")


def written_mistakes() -> list[Vector]:
    """Lines with every kind of mistake, and what is to be said of each, as one script."""
    makers = (
        _without_method,
        _wrong_starts,
        _wrong_recorded_rows,
        _wrong_scripted_rows,
        _wrong_uses,
    )
    lines: list[Vector] = []
    for make in makers:
        for line in make():
            if isinstance(line, Mistake):
                line = said(line.wrong, line.line, f"line {len(lines) + 1}: {line.wrong}")
            lines.append(line)
    return lines


_OTHER_VALUES = (
    *(b"", b"", b"", b"-", b"0", b"00", b"255", b"256", b"65535", b"65536", b"281474976710656"),
    *(b"0000001", b"x", b"0g", b"x" * 45, b"x" * 129, b"x" * 256),
    *(b"00" * 13, b"00" * 14, b"00" * 15, b"00" * 16, b"00" * 17),
    *(b"out", b"wrong", b"stale", b"good", b"go-on", b"granted", b"refuse", b"Good"),
)
_OTHER_FIELDS = (b"auts=", b"res=", b"ck=" + _SIXTEEN, b"at=0", b"key=" + _SIXTEEN, b"sequence=0")


def _another_value(rng: random.Random, line: bytes) -> bytes:
    """Another value in one of the fields."""
    words = line.split(b" ")
    places = [at for at, word in enumerate(words) if b"=" in word[1:]]
    if places:
        at = rng.choice(places)
        words[at] = words[at].partition(b"=")[0] + b"=" + rng.choice(_OTHER_VALUES)
    return b" ".join(words)


def _another_field(rng: random.Random, line: bytes) -> bytes:
    words = line.split(b" ")
    words.insert(rng.randint(1, len(words)), rng.choice(_OTHER_FIELDS))
    return b" ".join(words)


_LINE_DAMAGES = (*DAMAGES, *[_another_value] * 7, _another_field)


def _damaged_line(rng: random.Random, line: bytes) -> bytes:
    for _ in range(rng.choice((0, 1, 1, 1, 1, 2, 3))):
        if line:
            line = rng.choice(_LINE_DAMAGES)(rng, line)
    return line


def _damaged_lines(rng: random.Random) -> Iterator[bytes]:
    """A method that is started, and some uses of it, with up to three things changed on a line."""
    rows = [_good(), _stale(), _stale(outcome=b"out", auts=None)]
    rows += [_granted(), _granted(outcome=b"go-on", at=None)]
    recorded = rng.getrandbits(1)
    yield b"card recorded" if recorded else b"scripted store=" + b"00" * 200
    for _ in range(rng.randint(2, 5)):
        yield _damaged_line(rng, rng.choice(rows[:3] if recorded else rows[3:]))
    yield _damaged_line(rng, rng.choice(rows))
    for _ in range(rng.randint(2, 4)):
        packet = _PACKET if recorded else b"01090005fd"
        yield _damaged_line(rng, rng.choice((_processed(packet), _processed(packet), b"block")))
    yield _damaged_line(rng, rng.choice((_test(), _test(), b"card recorded", b"clear", rows[0])))


def mistakes(seed: int, sessions: int = 300) -> bytes:
    """A script of lines, most of which cannot be read."""
    rng = random.Random(seed)
    lines = [rng.choice((_processed(), _good(), b"clear", b"block")) for _ in range(10)]
    for _ in range(sessions):
        lines += _damaged_lines(rng)
    ends = (b"\n", b"\n", b"\n", b"\r\n", b" \n")
    return b"".join(line + rng.choice(ends) for line in lines)
