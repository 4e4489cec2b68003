"""EAP-AKA' and its cards."""

from abc import ABC, abstractmethod
from collections import Counter
from collections.abc import Iterable, Iterator
from dataclasses import dataclass
from typing import NamedTuple

import keys
from messages import eap_response
from methods import GoOn, Granted, Method, Subscription, Unproven

LARGEST_SEQUENCE = 2**48 - 1

_LONGEST_PACKET = 65_535
_FIRST_ATTRIBUTE = 8
_WORD = 4
_MAC_BYTES = 16

# Subtypes
_CHALLENGE = 1
_AUTHENTICATION_REJECT = 2
_SYNCHRONIZATION_FAILURE = 4
_IDENTITY = 5
_CLIENT_ERROR = 14

# Types of attributes
_AT_RAND = 1
_AT_AUTN = 2
_AT_RES = 3
_AT_AUTS = 4
_AT_PERMANENT_ID_REQ = 10
_AT_MAC = 11
_AT_ANY_ID_REQ = 13
_AT_IDENTITY = 14
_AT_FULLAUTH_ID_REQ = 17
_AT_CLIENT_ERROR_CODE = 22
_AT_KDF_INPUT = 23
_AT_KDF = 24

_FIRST_PASSED_OVER = 128
_MOST_AT_KDF = 8
_IDENTITY_REQUESTS = (_AT_PERMANENT_ID_REQ, _AT_ANY_ID_REQ, _AT_FULLAUTH_ID_REQ)
_TAKEN = {
    _CHALLENGE: (_AT_RAND, _AT_AUTN, _AT_MAC, _AT_KDF_INPUT, _AT_KDF),
    _IDENTITY: _IDENTITY_REQUESTS,
}
_WORDS = {
    _AT_RAND: 5,
    _AT_AUTN: 5,
    _AT_PERMANENT_ID_REQ: 1,
    _AT_MAC: 5,
    _AT_ANY_ID_REQ: 1,
    _AT_FULLAUTH_ID_REQ: 1,
    _AT_KDF: 1,
}


# Cards


@dataclass(frozen=True)
class Out:
    """There is no card."""


@dataclass(frozen=True)
class Wrong:
    """The card does not accept the MAC of AUTN."""


@dataclass(frozen=True)
class Stale:
    """The card does not accept the sequence number."""

    auts: bytes


@dataclass(frozen=True)
class Good:
    """The card accepts AUTN."""

    res: bytes
    ck: bytes
    ik: bytes


Outcome = Out | Wrong | Stale | Good


class Card(ABC):
    """A card, which may hold something that changes as it is asked."""

    @abstractmethod
    def ask(self, rand: bytes, autn: bytes) -> Outcome:
        """Asks the card."""


class RecordedRow(NamedTuple):
    """What the recorded card says to this RAND and AUTN."""

    rand: bytes
    autn: bytes
    outcome: Outcome


class RecordedCard(Card):
    """A card that says what its rows say."""

    def __init__(self, rows: Iterable[RecordedRow]) -> None:
        self._rows = tuple(rows)

    def ask(self, rand: bytes, autn: bytes) -> Outcome:
        if not self._rows:
            return Out()
        for row in self._rows:
            if (row.rand, row.autn) == (rand, autn):
                return row.outcome
        return Wrong()


def _xor(left: bytes, right: bytes) -> bytes:
    return bytes(a ^ b for a, b in zip(left, right, strict=True))


class TestCard(Card):
    """The test card of TS 34.108, with its own sequence number."""

    def __init__(self, key: bytes, sequence: int) -> None:
        self._key = key
        self._sequence = sequence

    def ask(self, rand: bytes, autn: bytes) -> Outcome:
        x = _xor(self._key, rand)
        ak = x[3:9]

        def mac(sequence: bytes, amf_field: bytes) -> bytes:
            return _xor(x[:8], sequence + amf_field)

        sequence = _xor(autn[:6], ak)
        if autn[8:] != mac(sequence, autn[6:8]):
            return Wrong()
        number = int.from_bytes(sequence, "big")
        if number <= self._sequence:
            own = self._sequence.to_bytes(6, "big")
            return Stale(_xor(own, ak) + mac(own, b"\0\0"))
        self._sequence = number
        return Good(res=x, ck=x[1:] + x[:1], ik=x[2:] + x[:2])


# Packets


@dataclass(frozen=True)
class Attribute:
    """An attribute with its place in the packet; `value` are all its bytes."""

    place: int
    value: bytes

    @property
    def type(self) -> int:
        """Its first byte."""
        return self.value[0]

    @property
    def number(self) -> int:
        """Bytes 2 and 3, in the attributes where they are a number."""
        return int.from_bytes(self.value[2:4], "big")

    @property
    def main(self) -> bytes:
        """What follows bytes 2 and 3."""
        return self.value[4:]

    @property
    def right_words(self) -> int:
        """The words that an attribute of its type must have."""
        if self.type == _AT_KDF_INPUT:
            return _words(_WORD + self.number)
        return _WORDS[self.type]


def _words(count: int) -> int:
    """The words that this many bytes need."""
    return -(-count // _WORD)


def _attribute(kind: int, value: bytes) -> bytes:
    """An attribute to be sent; the value follows the length byte and is filled with zero bytes."""
    words = _words(2 + len(value))
    return (bytes([kind, words]) + value).ljust(words * _WORD, b"\0")


def _body(subtype: int, *attributes: bytes) -> bytes:
    """What follows the five bytes of an EAP response's header."""
    return bytes([subtype, 0, 0]) + b"".join(attributes)


_CLIENT_ERROR_BODY = _body(_CLIENT_ERROR, _attribute(_AT_CLIENT_ERROR_CODE, b"\0\0"))
_REJECT_BODY = _body(_AUTHENTICATION_REJECT)


def _client_error(number: int, place: int) -> Unproven:
    return Unproven(number, place, _CLIENT_ERROR_BODY)


def _reject(number: int, place: int) -> Unproven:
    return Unproven(number, place, _REJECT_BODY)


def _attributes(packet: bytes) -> Iterator[Attribute]:
    """Question 22, and the attributes."""
    place = _FIRST_ATTRIBUTE
    while place < len(packet):
        size = _WORD * packet[place + 1] if place + 1 < len(packet) else 0
        if size == 0 or place + size > len(packet):
            raise _client_error(22, place)
        yield Attribute(place, packet[place : place + size])
        place += size


def _read(packet: bytes) -> tuple[int, list[Attribute]]:
    """Questions 21 to 24: the subtype, and the attributes that are not passed over."""
    if not 8 <= len(packet) <= _LONGEST_PACKET or packet[5] not in _TAKEN:
        raise _client_error(21, 0)
    subtype = packet[5]
    taken = _TAKEN[subtype]
    found = [a for a in _attributes(packet) if a.type < _FIRST_PASSED_OVER]
    for attribute in found:
        if attribute.type not in taken:
            raise _client_error(23, attribute.place)
    # The three kinds of identity request count as one.
    seen: Counter[int] = Counter()
    for attribute in found:
        kind = attribute.type if subtype == _CHALLENGE else _IDENTITY
        seen[kind] += 1
        most = _MOST_AT_KDF if kind == _AT_KDF else 1
        if len(attribute.value) != _WORD * attribute.right_words or seen[kind] > most:
            raise _client_error(24, attribute.place)
    if len(seen) < (len(taken) if subtype == _CHALLENGE else 1):
        raise _client_error(24, 0)
    return subtype, found


def _first(attributes: list[Attribute], kind: int) -> Attribute:
    return next(attribute for attribute in attributes if attribute.type == kind)


def _mac(k_aut: bytes, packet: bytes) -> bytes:
    return keys.hmac(k_aut, packet)[:_MAC_BYTES]


class AkaPrime(Method):
    """EAP-AKA' with a card."""

    eap_type = 50

    def __init__(self, card: Card) -> None:
        super().__init__()
        self._card = card

    def find(self, packet: bytes, subscription: Subscription, suci: bytes) -> GoOn | Granted:
        subtype, attributes = _read(packet)
        if subtype == _IDENTITY:
            return self._find_identity(attributes[0], suci)
        return self._find_challenge(packet, attributes, subscription)

    def _find_identity(self, asking: Attribute, suci: bytes) -> GoOn:
        """Question 25."""
        if self.block is not None or asking.type == _AT_PERMANENT_ID_REQ:
            raise _client_error(25, asking.place)
        identity = len(suci).to_bytes(2, "big") + suci
        return GoOn(_body(_IDENTITY, _attribute(_AT_IDENTITY, identity)))

    def _find_challenge(
        self, packet: bytes, attributes: list[Attribute], subscription: Subscription
    ) -> Granted:
        """Questions 26 to 32."""
        functions = [attribute for attribute in attributes if attribute.type == _AT_KDF]
        if functions[0].number != 1:
            raise _reject(26, functions[0].place)
        name = _first(attributes, _AT_KDF_INPUT)
        if name.main[: name.number] != subscription.snn:
            raise _reject(27, name.place)
        rand, autn = _first(attributes, _AT_RAND), _first(attributes, _AT_AUTN)
        outcome = self._card.ask(rand.main, autn.main)
        if isinstance(outcome, Out):
            raise _client_error(28, 0)
        if not autn.main[6] & 0x80:
            raise _reject(29, autn.place)
        if isinstance(outcome, Wrong):
            raise _reject(30, autn.place)
        if isinstance(outcome, Stale):
            auts = _attribute(_AT_AUTS, outcome.auts)
            repeated = (function.value for function in functions)
            raise Unproven(31, autn.place, _body(_SYNCHRONIZATION_FAILURE, auts, *repeated))
        chain = keys.key_chain(
            outcome.ck, outcome.ik, autn.main, subscription.snn, subscription.supi, b""
        )
        self._check_mac(packet, _first(attributes, _AT_MAC), chain.k_aut)
        return Granted(
            self._challenge_body(packet[1], outcome.res, chain.k_aut), chain.msk + chain.emsk
        )

    @staticmethod
    def _check_mac(packet: bytes, mac: Attribute, k_aut: bytes) -> None:
        """Question 32."""
        start, end = mac.place + 2, mac.place + len(mac.value)
        zeroed = packet[:start] + bytes(end - start) + packet[end:]
        if mac.main != _mac(k_aut, zeroed):
            raise _client_error(32, mac.place)

    def _challenge_body(self, identifier: int, res: bytes, k_aut: bytes) -> bytes:
        bits = (8 * len(res)).to_bytes(2, "big")
        before = _body(_CHALLENGE, _attribute(_AT_RES, bits + res))
        empty = before + _attribute(_AT_MAC, bytes(2 + _MAC_BYTES))
        mac = _mac(k_aut, eap_response(identifier, self.eap_type, empty))
        return before + _attribute(_AT_MAC, bytes(2) + mac)
