"""Scripts of EAP methods: random and damaged requests.

Everything random here follows from a seed, so that a script can be made again. Most requests are
right but for one damage, and have the right MAC where one is wanted.
"""

import hmac
import random
from collections.abc import Callable, Iterator
from dataclasses import dataclass, field
from typing import NamedTuple

from network import (
    AKA_PRIME,
    AT_ANY_ID_REQ,
    AT_AUTN,
    AT_FULLAUTH_ID_REQ,
    AT_KDF,
    AT_KDF_INPUT,
    AT_MAC,
    AT_PERMANENT_ID_REQ,
    AT_RAND,
    CHALLENGE,
    IDENTITY,
    SCRIPTED,
    Secrets,
    attribute,
    kdf,
    network_name,
    request,
    test_card_autn,
    test_card_secrets,
)
from scripts import field_hex, line_of, plain_hex, random_text

_LARGEST_SEQUENCE = 2**48 - 1
_LONGEST_PACKET = 2048


# Random requests


@dataclass
class _Draft:
    """A request of EAP-AKA' as it is made.

    The parts are attributes and whatever stands in their places. If there is a key for it, the MAC
    of the first AT_MAC is set when the draft is written; `after` are damages that come after that.
    """

    subtype: int
    parts: list[bytes]
    k_aut: bytes | None = None
    reserved: bytes = bytes(2)
    after: list[Callable[[bytes], bytes]] = field(default_factory=list)

    def written(self, identifier: int) -> bytes:
        """The packet."""
        body = bytes([self.subtype]) + self.reserved
        mac_place: int | None = None
        for part in self.parts:
            if mac_place is None and part[:2] == bytes([AT_MAC, 5]) and len(part) == 20:
                mac_place = 5 + len(body)
            body += part
        packet = request(identifier, AKA_PRIME, body)
        if mac_place is not None and self.k_aut is not None:
            zeroed = packet[: mac_place + 2] + bytes(18) + packet[mac_place + 20 :]
            mac = hmac.digest(self.k_aut, zeroed, "sha256")[:16]
            packet = packet[: mac_place + 4] + mac + packet[mac_place + 20 :]
        for damage in self.after:
            packet = damage(packet)
        return packet

    def place(self, rng: random.Random, *kinds: int) -> int | None:
        """The place, among the parts, of one of these types or of any of them."""
        places = [at for at, part in enumerate(self.parts) if not kinds or part[0] in kinds]
        return rng.choice(places) if places else None


def _two_bytes(rng: random.Random) -> bytes:
    """Reserved bytes, which are not zero in one of three."""
    return rng.choice((bytes(2), bytes(2), rng.randbytes(2)))


def _passed_over(rng: random.Random, most_words: int = 6) -> bytes:
    """An attribute that is passed over."""
    kind = rng.choice((128, 129, 130, 132, 134, 136, 255, rng.randrange(128, 256)))
    words = rng.randint(1, most_words)
    return bytes([kind, words]) + rng.randbytes(4 * words - 2)


def _mixed(rng: random.Random, parts: list[bytes]) -> list[bytes]:
    """The parts in a random order, in one of two with attributes that are passed over between."""
    rng.shuffle(parts)
    if rng.getrandbits(1):
        for _ in range(rng.choice((1, 1, 2, 3))):
            parts.insert(rng.randint(0, len(parts)), _passed_over(rng))
    return parts


def _random_challenge(
    rng: random.Random, rand: bytes, autn: bytes, snn: bytes, k_aut: bytes | None
) -> _Draft:
    """A challenge without a fault, its first AT_KDF being 1."""
    parts = _mixed(
        rng,
        [
            attribute(AT_RAND, _two_bytes(rng) + rand),
            attribute(AT_AUTN, _two_bytes(rng) + autn),
            attribute(AT_MAC, _two_bytes(rng) + rng.randbytes(16)),
            attribute(
                AT_KDF_INPUT,
                len(snn).to_bytes(2, "big") + snn,
                rng.choice((bytes(3), rng.randbytes(3))),
            ),
        ],
    )
    place = rng.randint(0, len(parts))
    parts.insert(place, kdf(1))
    for _ in range(rng.choice((0, 0, 0, 1, 2, 7, 7))):
        parts.insert(rng.randint(place + 1, len(parts)), kdf(rng.choice((1, 2, 65535))))
    return _Draft(CHALLENGE, parts, k_aut, _two_bytes(rng))


def _random_identity(rng: random.Random, kind: int | None = None) -> _Draft:
    """An identity request without a fault, unless it is of the type that is not answered."""
    asked = rng.choice((AT_ANY_ID_REQ, AT_FULLAUTH_ID_REQ)) if kind is None else kind
    return _Draft(
        IDENTITY, _mixed(rng, [attribute(asked, _two_bytes(rng))]), None, _two_bytes(rng)
    )


# Damages, by the question that they are meant to fail


def _cut_to(length: int) -> Callable[[bytes], bytes]:
    """Cuts a packet, which then tells its new length."""

    def cut(packet: bytes) -> bytes:
        shorter = packet[:length]
        return shorter[:2] + len(shorter).to_bytes(2, "big") + shorter[4:]

    return cut


def _another_subtype(rng: random.Random, draft: _Draft) -> None:
    draft.subtype = rng.choice((0, 2, 4, 6, 12, 13, 14, 129, 133, 255, rng.randrange(6, 256)))


def _no_attributes_begun(rng: random.Random, draft: _Draft) -> None:
    draft.after.append(_cut_to(rng.randint(5, 7)))


def _cut_inside(rng: random.Random, draft: _Draft) -> None:
    length = len(draft.written(0))
    draft.after.append(_cut_to(rng.randint(8, length - 1) if length > 8 else 8))


def _length_changed(rng: random.Random, draft: _Draft) -> None:
    """A length of zero, or one that goes beyond the end of the packet."""
    place = draft.place(rng)
    if place is not None:
        part = draft.parts[place]
        left = sum(map(len, draft.parts[place:])) // 4
        words = rng.choice((0, 0, min(left + 1, 255), 255))
        draft.parts[place] = part[:1] + bytes([words]) + part[2:]


def _bytes_at_end(rng: random.Random, draft: _Draft) -> None:
    """A type without a length, or an attribute that ends too early."""
    kind = rng.choice((AT_RAND, AT_KDF, 128, 200, rng.randrange(256)))
    draft.parts.append(
        rng.choice((bytes([kind]), bytes([kind, 1]), bytes([kind, 1, 0]), bytes([kind, 0, 0, 0])))
    )


def _foreign_attribute(rng: random.Random, draft: _Draft) -> None:
    kinds = [0, 3, 4, 6, 7, 12, 14, 16, 19, 20, 21, 22, 25, 126, 127]
    if draft.subtype == IDENTITY:
        kinds += [AT_RAND, AT_AUTN, AT_MAC, AT_KDF_INPUT, AT_KDF]
    else:
        kinds += [AT_PERMANENT_ID_REQ, AT_ANY_ID_REQ, AT_FULLAUTH_ID_REQ]
    words = rng.choice((1, 1, 2, 5))
    part = bytes([rng.choice(kinds), words]) + rng.randbytes(4 * words - 2)
    draft.parts.insert(rng.randint(0, len(draft.parts)), part)


_ID_REQS = (AT_PERMANENT_ID_REQ, AT_ANY_ID_REQ, AT_FULLAUTH_ID_REQ)
_NEEDED = (AT_RAND, AT_AUTN, AT_MAC, AT_KDF_INPUT, AT_KDF, *_ID_REQS)


def _missing_attribute(rng: random.Random, draft: _Draft) -> None:
    place = draft.place(rng, *_NEEDED)
    if place is not None:
        kind = draft.parts[place][0]
        draft.parts = [part for part in draft.parts if part[0] != kind]


def _doubled_attribute(rng: random.Random, draft: _Draft) -> None:
    place = draft.place(rng, *(kind for kind in _NEEDED if kind != AT_KDF))
    if place is not None:
        part = draft.parts[place]
        if part[0] in _ID_REQS:
            part = bytes([rng.choice(_ID_REQS)]) + part[1:]
        draft.parts.insert(rng.randint(0, len(draft.parts)), part)


def _many_kdfs(rng: random.Random, draft: _Draft) -> None:
    """Nine AT_KDF in a challenge, or ten; the first of them may be another than before."""
    have = sum(part[0] == AT_KDF for part in draft.parts)
    for _ in range(rng.choice((9, 9, 10)) - have):
        draft.parts.insert(rng.randint(0, len(draft.parts)), kdf(1))


def _wrong_length(rng: random.Random, draft: _Draft) -> None:
    """A word more or less, wholly inside the packet."""
    place = draft.place(rng, *_NEEDED)
    if place is None:
        return
    part = draft.parts[place]
    if len(part) > 4 and rng.getrandbits(1):
        part = part[:-4]
    else:
        part += rng.choice((bytes(4), rng.randbytes(4), bytes(4) + rng.randbytes(4)))
    draft.parts[place] = part[:1] + bytes([len(part) // 4]) + part[2:]


def _wrong_name_length(rng: random.Random, draft: _Draft) -> None:
    """A length of the network name that needs other words than there are."""
    place = draft.place(rng, AT_KDF_INPUT)
    if place is not None:
        part = draft.parts[place]
        room = len(part) - 4
        wrong = rng.choice((room + 1, max(room - 4, 0), 0, 65535, 256 + room, room + 4))
        draft.parts[place] = part[:2] + wrong.to_bytes(2, "big") + part[4:]


def _another_kdf(rng: random.Random, draft: _Draft) -> None:
    place = next((at for at, part in enumerate(draft.parts) if part[0] == AT_KDF), None)
    if place is not None:
        number = rng.choice((0, 2, 3, 257, 256, 32769, 65535))
        if rng.getrandbits(1):
            draft.parts[place] = kdf(number)
        else:
            draft.parts.insert(rng.randint(0, place), kdf(number))


def _another_name(rng: random.Random, draft: _Draft) -> None:
    place = draft.place(rng, AT_KDF_INPUT)
    if place is None:
        return
    part = draft.parts[place]
    name = part[4 : 4 + int.from_bytes(part[2:4], "big")]
    change = rng.randrange(5)
    if change == 0 or not name:
        name += rng.choice((b"\0", b"x", b"0000"))
    elif change == 1:
        name = name[:-1]
    elif change == 2:
        name = b""
    else:
        at = rng.randrange(len(name))
        name = name[:at] + bytes([name[at] ^ rng.choice((1, 0x20, 0x80))]) + name[at + 1 :]
    draft.parts[place] = network_name(name)


def _another_mac(rng: random.Random, draft: _Draft) -> None:
    if rng.getrandbits(1):
        draft.k_aut = rng.choice((bytes(32), rng.randbytes(32), None))
        return
    # One bit of the MAC, or of anything from the EAP type on, is changed when the MAC is set.
    anywhere = rng.getrandbits(1)

    def change(packet: bytes) -> bytes:
        found = packet.find(bytes([AT_MAC, 5]), 8)
        if anywhere or found < 0 or found + 20 > len(packet):
            at = rng.randrange(4, len(packet))
        else:
            at = found + 4 + rng.randrange(16)
        return packet[:at] + bytes([packet[at] ^ (1 << rng.randrange(8))]) + packet[at + 1 :]

    draft.after.append(change)


_Damage = Callable[[random.Random, _Draft], None]

_DAMAGES: tuple[_Damage, ...] = (
    _another_subtype,
    _no_attributes_begun,
    _cut_inside,
    _length_changed,
    _bytes_at_end,
    _foreign_attribute,
    _missing_attribute,
    _doubled_attribute,
    _many_kdfs,
    _wrong_length,
    _wrong_name_length,
    _another_kdf,
    _another_name,
    *[_another_mac] * 4,
)
_IDENTITY_DAMAGES = _DAMAGES[:8] + (_wrong_length, _many_kdfs)


def _damaged(rng: random.Random, draft: _Draft) -> _Draft:
    """The draft with one damage, or in one of five with two."""
    damages = _IDENTITY_DAMAGES if draft.subtype == IDENTITY else _DAMAGES
    for damage in rng.sample(damages, 2 if rng.randrange(5) == 0 else 1):
        damage(rng, draft)
    return draft


# Sessions


@dataclass
class _Subscriber:
    """What a `process` line is told beside the packet."""

    snn: bytes
    supi: bytes
    suci: bytes

    def line(self, rng: random.Random, packet: bytes) -> bytes:
        """The line that hands this packet to the method."""
        fields = [b"snn=" + self.snn, b"supi=" + self.supi, b"suci=" + self.suci]
        return _ended(rng, b"process", [*fields, plain_hex(rng, packet)])


def _ended(rng: random.Random, command: bytes, words: list[bytes]) -> bytes:
    return line_of(rng, command, words) + rng.choice((b"\n", b"\n", b"\r\n"))


def _subscriber(rng: random.Random) -> _Subscriber:
    usual = b"5G:mnc015.mcc234.3gppnetwork.org"
    snn = rng.choice(
        (
            usual,
            usual + b":0123459ABEF",
            b"WLAN",
            b"HRPD",
            random_text(rng, rng.randint(1, 44)),
            random_text(rng, 44),
        )
    )
    if rng.randrange(20) == 0:
        snn = b""
    supi = random_text(rng, rng.choice((0, 1, 15, 15, 15, 20, 128, rng.randrange(129))))
    suci = random_text(rng, rng.choice((1, 2, 3, 4, 5, 40, 254, 255, rng.randint(1, 255))))
    return _Subscriber(snn, supi, suci)


def _between(rng: random.Random) -> Iterator[bytes]:
    """A look at the block, or the end of a run, between two requests."""
    if rng.randrange(4) == 0:
        yield _ended(rng, b"block", [])
    if rng.randrange(10) == 0:
        yield _ended(rng, b"clear", [])
        if rng.getrandbits(1):
            yield _ended(rng, b"block", [])


def _strange(rng: random.Random) -> bytes:
    """Bytes that are no request of EAP-AKA', or one of a peculiar size."""
    packet = _random_identity(rng).written(rng.randrange(256))
    size = len(packet)
    kind = rng.randrange(9)
    if kind == 0:
        return rng.choice((b"", packet[: rng.randrange(size)], rng.randbytes(rng.randrange(40))))
    if kind == 1:
        return bytes([rng.choice((0, 2, 3, 4, 129))]) + packet[1:]
    if kind == 2:
        wrong = rng.choice((size - 1, size + 1, size ^ 0x100, 0, 65535))
        return packet[:2] + wrong.to_bytes(2, "big") + packet[4:]
    if kind == 3:
        return packet[:4] + bytes([rng.choice((0, 1, 49, 51, 253, 255))]) + packet[5:]
    # Filled up to as many bytes as there may be, to one less and to one more.
    length = rng.choice((_LONGEST_PACKET - 1, _LONGEST_PACKET, _LONGEST_PACKET, 2049, 2052, 4096))
    while size < length:
        words = min(255, max(1, (length - size) // 4))
        packet += (bytes([rng.randrange(128, 256), words]) + rng.randbytes(4 * words - 2))[
            : length - size
        ]
        size = len(packet)
    return packet[:2] + length.to_bytes(2, "big") + packet[4:]


def _identity_lines(rng: random.Random, subscriber: _Subscriber) -> Iterator[bytes]:
    """An identity request: without a fault, of the type that is not answered, or damaged."""
    kind = rng.randrange(8)
    draft = _random_identity(rng, AT_PERMANENT_ID_REQ if kind < 2 else None)
    if kind >= 4:
        draft = _damaged(rng, draft)
    yield subscriber.line(rng, draft.written(rng.randrange(256)))


_SEPARATION_BIT = 0x80


def _amf_field(rng: random.Random) -> bytes:
    """The AMF field of AUTN, in one of eight without the separation bit."""
    first = rng.choice((0x80, 0x80, 0xFF, 0x80 | rng.randrange(128)))
    if rng.randrange(8) == 0:
        first ^= _SEPARATION_BIT
    return bytes([first, rng.choice((0, 0, rng.randrange(256)))])


def _test_card_session(rng: random.Random) -> Iterator[bytes]:
    """A test card and some requests; the network follows the card's sequence number."""
    key = rng.choice((bytes(16), rng.randbytes(16), rng.randbytes(16)))
    own = rng.choice(
        (0, 0, 1, rng.randrange(1000), rng.getrandbits(48), _LARGEST_SEQUENCE - rng.randrange(3))
    )
    subscriber = _subscriber(rng)
    zeros = rng.choice((b"", b"", b"00"))
    words = [b"test", b"key=" + field_hex(rng, key), b"sequence=" + zeros + b"%d" % own]
    yield _ended(rng, b"card", words)
    for _ in range(rng.randint(3, 9)):
        yield from _between(rng)
        if rng.randrange(5) == 0:
            yield from _identity_lines(rng, subscriber)
            continue
        if rng.randrange(20) == 0:
            yield subscriber.line(rng, _strange(rng))
            continue
        rand = rng.choice((bytes(range(16)), rng.randbytes(16), rng.randbytes(16)))
        step = rng.choice((1, 1, 1, 2, 256, 70_000, 0, 0, -1))
        sequence = min(max(own + step, 0), _LARGEST_SEQUENCE)
        autn = test_card_autn(key, rand, sequence, _amf_field(rng))
        if rng.randrange(8) == 0:
            at = rng.randrange(16)
            autn = autn[:at] + bytes([autn[at] ^ (1 << rng.randrange(8))]) + autn[at + 1 :]
        else:
            own = max(own, sequence)
        k_aut = test_card_secrets(key, rand).k_aut(autn, subscriber.snn, subscriber.supi)
        draft = _random_challenge(rng, rand, autn, subscriber.snn, k_aut)
        if rng.getrandbits(1):
            draft = _damaged(rng, draft)
        packet = draft.written(rng.randrange(256))
        yield subscriber.line(rng, packet)
        if rng.randrange(6) == 0:
            # The same again: where the card accepted it before, the number is stale now.
            yield subscriber.line(rng, packet)
        elif rng.randrange(5) == 0:
            yield subscriber.line(rng, _random_identity(rng).written(rng.randrange(256)))


class _Recorded(NamedTuple):
    """A row of a recorded card."""

    rand: bytes
    autn: bytes
    outcome: str
    auts: bytes
    secrets: Secrets

    def line(self, rng: random.Random) -> bytes:
        """The line that adds the row."""
        values = {"rand": self.rand, "autn": self.autn}
        if self.outcome == "stale":
            values["auts"] = self.auts
        if self.outcome == "good":
            values.update(self.secrets._asdict())
        words = [name.encode() + b"=" + field_hex(rng, value) for name, value in values.items()]
        return _ended(rng, b"row", [*words, b"outcome=" + self.outcome.encode()])


def _recorded_row(rng: random.Random, before: list[_Recorded]) -> _Recorded:
    """A row, in some cases with the RAND, the AUTN or both of an earlier one."""
    rand = rng.randbytes(16)
    autn = rng.randbytes(6) + _amf_field(rng) + rng.randbytes(8)
    if before and rng.randrange(3) == 0:
        other = rng.choice(before)
        rand, autn = rng.choice(((other.rand, autn), (rand, other.autn), (other.rand, other.autn)))
    outcome = rng.choice(("good", "good", "good", "good", "stale", "wrong", "out", "out"))
    secrets = Secrets(rng.randbytes(16), rng.randbytes(16), rng.randbytes(16))
    return _Recorded(rand, autn, outcome, rng.randbytes(14), secrets)


def _recorded_session(rng: random.Random) -> Iterator[bytes]:
    """A recorded card and some requests."""
    subscriber = _subscriber(rng)
    yield _ended(rng, b"card", [b"recorded"])
    rows: list[_Recorded] = []
    for _ in range(rng.choice((0, 1, 2, 3, 5))):
        rows.append(_recorded_row(rng, rows))
        yield rows[-1].line(rng)
    for _ in range(rng.randint(3, 9)):
        yield from _between(rng)
        if rng.randrange(6) == 0:
            yield from _identity_lines(rng, subscriber)
            continue
        if rng.randrange(20) == 0:
            yield subscriber.line(rng, _strange(rng))
            continue
        known = bool(rows) and rng.randrange(8) != 0
        row = rng.choice(rows) if known else _recorded_row(rng, [])
        k_aut = row.secrets.k_aut(row.autn, subscriber.snn, subscriber.supi)
        draft = _random_challenge(rng, row.rand, row.autn, subscriber.snn, k_aut)
        if rng.getrandbits(1):
            draft = _damaged(rng, draft)
        yield subscriber.line(rng, draft.written(rng.randrange(256)))
        if rng.randrange(5) == 0:
            yield subscriber.line(rng, _random_identity(rng).written(rng.randrange(256)))


def _is_process(line: bytes) -> bool:
    return line.split()[0] == b"process"


def random_aka(seed: int, count: int = 5000) -> list[bytes]:
    """Lines with test cards and recorded cards, and `count` requests for them."""
    rng = random.Random(seed)
    lines: list[bytes] = []
    asked = 0
    while asked < count:
        session = rng.choice((_test_card_session, _recorded_session))
        for line in session(rng):
            if asked == count:
                break
            lines.append(line)
            asked += _is_process(line)
    return lines


def random_scripted(seed: int, count: int = 1500) -> list[bytes]:
    """Lines with scripted methods, and `count` requests for them."""
    rng = random.Random(seed)
    lines: list[bytes] = []
    asked = 0
    while asked < count:
        store = rng.randbytes(rng.choice((0, 127, 128, 129, 256, 500, rng.randrange(900))))
        lines.append(_ended(rng, b"scripted", [b"store=" + field_hex(rng, store)]))
        subscriber = _subscriber(rng)
        few = [rng.randrange(256) for _ in range(3)]
        for _ in range(rng.choice((0, 3, 6, 6, 6, 6))):
            outcome = rng.choice((b"go-on", b"go-on", *[b"granted"] * 5, b"refuse"))
            words = [b"identifier=%d" % rng.choice(few), b"outcome=" + outcome]
            if outcome == b"granted":
                last = len(store) - 128
                at = rng.choice((0, 0, max(last, 0), max(last, 0), max(last + 1, 0), 65535))
                words.append(b"at=%d" % at)
            lines.append(_ended(rng, b"row", words))
        for _ in range(rng.randint(3, 9)):
            lines += _between(rng)
            identifier = rng.choice((*few, *few, rng.randrange(256)))
            eap_type = 50 if rng.randrange(15) == 0 else SCRIPTED
            packet = request(identifier, eap_type, rng.randbytes(rng.choice((0, 0, 1, 20))))
            if rng.randrange(15) == 0:
                packet = packet[:-1]
            lines.append(subscriber.line(rng, packet))
            asked += 1
    return lines
