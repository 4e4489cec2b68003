"""Network names and messages, and the commands `snn` and `decode`.

Reading gives a value with its parts and their places, or raises `Refused`. Every place is counted
from the first byte of the message. What the device answers is written here too.
"""

import re
from collections.abc import Iterable
from dataclasses import dataclass
from enum import Enum, IntEnum
from typing import NamedTuple

from script import Command, Hex, Text

LONGEST_MESSAGE = 2048

_HEADER = b"\x7e\x00"  # 5GS mobility management, not protected
_REQUEST = 0x56
_RESPONSE = 0x57
_REJECT = 0x58
_RESULT = 0x5A

_NGKSI_PLACE = 3

_EAP_MESSAGE = 0x78  # its tag in a request, a reject and a response
_ABBA = 0x38  # its tag in a result

_EAP_REQUEST = 1
_EAP_RESPONSE = 2
_EAP_SUCCESS = 3
_EAP_FAILURE = 4

_IDENTITY = 1
_NOTIFICATION = 2
_NAK = 3


# Refusals


class Layer(IntEnum):
    """Where a fault lies; each layer is carried by the one before it."""

    UNIT = 1
    MESSAGE = 2
    PACKET = 3
    METHOD = 4


_LAYER_NAMES = {
    Layer.UNIT: "unit",
    Layer.MESSAGE: "message",
    Layer.PACKET: "EAP packet",
    Layer.METHOD: "EAP method",
}

_WRONG = {
    2: "not a serving network name",
    6: "not a message of 3 to 2048 bytes that starts with 7e 00",
    7: "the type is none of 56, 58 and 5a",
    8: "a part or an element is cut",
    9: "there is no EAP message",
    10: "the EAP packet has another length than it says",
    11: "the EAP packet's code does not fit",
    12: "there is no ABBA of at least 2 bytes",
}
_NO_KEY_SET = "the ngKSI names no key set"


@dataclass(eq=False)
class Refused(Exception):
    """A refusal: its number, and the layer and the place of what is wrong."""

    number: int
    layer: Layer
    place: int

    def told(self) -> str:
        """The line that answers with the refusal."""
        wrong = _WRONG[self.number]
        if self.number == 12 and self.place == _NGKSI_PLACE:
            wrong = _NO_KEY_SET
        layer = f"{self.layer:d} ({_LAYER_NAMES[self.layer]})"
        return f"refused: number {self.number}, layer {layer}, place {self.place}: {wrong}"


# Network names

_NETWORK_NAME = re.compile(
    rb"5G:mnc[0-9]{3}\.mcc[0-9]{3}\.3gppnetwork\.org(?P<identifier>:[0-9A-F]{11})?"
)


class Network(Enum):
    """The kinds of network, which a serving network name tells apart."""

    PUBLIC = "public"
    PRIVATE = "private"


def read_network_name(name: bytes) -> Network:
    """The kind of the network that has this serving network name."""
    form = _NETWORK_NAME.fullmatch(name)
    if not form:
        raise Refused(2, Layer.UNIT, 0)
    return Network.PRIVATE if form["identifier"] else Network.PUBLIC


# What the network sends


@dataclass(frozen=True)
class Part:
    """A part of a message that holds a value.

    `place` is that of the part's first byte, a length byte or a tag; the value starts at `start`.
    """

    place: int
    start: int
    value: bytes

    @property
    def end(self) -> int:
        """The place after the part."""
        return self.start + len(self.value)


@dataclass(frozen=True)
class Element(Part):
    """A part that starts with a tag."""

    tag: int


@dataclass(frozen=True)
class Packet:
    """An EAP packet: its place in the message, and its bytes, as many as it says itself."""

    place: int
    value: bytes

    @property
    def code(self) -> int:
        """1 request, 2 response, 3 success, 4 failure."""
        return self.value[0]

    @property
    def identifier(self) -> int:
        """The number of a request, which its response repeats."""
        return self.value[1]

    @property
    def type(self) -> int:
        """The EAP type of a request."""
        return self.value[4]

    @property
    def body(self) -> bytes:
        """What follows the EAP type of a request."""
        return self.value[5:]


class Kind(Enum):
    """What a message is that passes its questions, by its name in answers."""

    REQUEST = "AUTHENTICATION REQUEST"
    SUCCESS = "AUTHENTICATION RESULT (success)"
    FAILURE = "AUTHENTICATION RESULT (failure)"
    REJECT = "AUTHENTICATION REJECT"


@dataclass(frozen=True)
class KeySet:
    """What a message says of a key set: the ngKSI that names it, and the ABBA for its KAMF."""

    ngksi: int
    abba: Part


@dataclass(frozen=True)
class Message:
    """A message that passed its questions.

    Only a request and a success have a key set, and only a reject may be without a packet.
    """

    kind: Kind
    length: int
    key_set: KeySet | None
    elements: tuple[Element, ...]
    packet: Packet | None


class _Parts(NamedTuple):
    """The parts of a message; its EAP message and its ABBA may each be fixed or an element."""

    eap_message: Part | None
    abba: Part | None
    elements: tuple[Element, ...]


_KINDS = {
    (_REQUEST, _EAP_REQUEST): Kind.REQUEST,
    (_RESULT, _EAP_SUCCESS): Kind.SUCCESS,
    (_RESULT, _EAP_FAILURE): Kind.FAILURE,
    (_REJECT, _EAP_FAILURE): Kind.REJECT,
}


def _inside(message: bytes, place: int, start: int, size: int) -> bytes:
    """The value, of this start and size, of the part at a place, which is refused if it is cut."""
    if start + size > len(message):
        raise Refused(8, Layer.MESSAGE, place)
    return message[start : start + size]


def _size(message: bytes, place: int, start: int) -> int:
    """The number that the length bytes from a place up to the start of a value make.

    Where they are cut themselves the value's start is outside, and any number will do.
    """
    return int.from_bytes(message[place:start], "big")


def _fixed_part(message: bytes, place: int, length_bytes: int) -> Part:
    """The part without a tag that starts with its length bytes at this place."""
    start = place + length_bytes
    return Part(place, start, _inside(message, place, start, _size(message, place, start)))


def _element(message: bytes, place: int) -> Element:
    """The element whose tag stands at this place."""
    tag = message[place]
    if tag >= 0x80:
        start, size = place + 1, 0
    elif tag == 0x21:
        start, size = place + 1, 16
    else:
        start = place + (3 if tag >= 0x70 else 2)
        size = _size(message, place + 1, start)
    return Element(place, start, _inside(message, place, start, size), tag)


def _elements(message: bytes, place: int) -> tuple[Element, ...]:
    """The elements from this place to the message's end."""
    found: list[Element] = []
    while place < len(message):
        found.append(_element(message, place))
        place = found[-1].end
    return tuple(found)


def _first(elements: Iterable[Element], tag: int) -> Element | None:
    """The element that counts of those with the tag, if there is any."""
    return next((element for element in elements if element.tag == tag), None)


def _parts(message: bytes) -> _Parts:
    """The parts of a message of one of the three types."""
    if message[2] == _REJECT:
        elements = _elements(message, 3)
        return _Parts(_first(elements, _EAP_MESSAGE), None, elements)
    _inside(message, _NGKSI_PLACE, _NGKSI_PLACE, 1)
    if message[2] == _REQUEST:
        abba = _fixed_part(message, 4, 1)
        elements = _elements(message, abba.end)
        return _Parts(_first(elements, _EAP_MESSAGE), abba, elements)
    eap_message = _fixed_part(message, 4, 2)
    elements = _elements(message, eap_message.end)
    return _Parts(eap_message, _first(elements, _ABBA), elements)


def read_packet(eap_message: Part) -> Packet:
    """The EAP packet that is the value of this EAP message."""
    value = eap_message.value
    if len(value) < 4 or int.from_bytes(value[2:4], "big") != len(value):
        raise Refused(10, Layer.PACKET, eap_message.start)
    return Packet(eap_message.start, value)


def _kind(message_type: int, packet: Packet) -> Kind:
    """What a message of this type is with this packet."""
    kind = _KINDS.get((message_type, packet.code))
    length = len(packet.value)
    if kind is None or (length < 5 if kind is Kind.REQUEST else length != 4):
        raise Refused(11, Layer.PACKET, packet.place)
    return kind


def _key_set(message: bytes, abba: Part | None) -> KeySet:
    """The key set that a request or a success, with this ABBA, speaks of."""
    ngksi = message[_NGKSI_PLACE] & 0x0F
    if ngksi & 7 == 7:
        raise Refused(12, Layer.MESSAGE, _NGKSI_PLACE)
    if abba is None:
        raise Refused(12, Layer.MESSAGE, len(message))
    if len(abba.value) < 2:
        raise Refused(12, Layer.MESSAGE, abba.place)
    return KeySet(ngksi, abba)


def read_message(message: bytes) -> Message:
    """What a message of the network says."""
    if not 3 <= len(message) <= LONGEST_MESSAGE or not message.startswith(_HEADER):
        raise Refused(6, Layer.MESSAGE, 0)
    message_type = message[2]
    if message_type not in (_REQUEST, _RESULT, _REJECT):
        raise Refused(7, Layer.MESSAGE, 2)
    parts = _parts(message)
    packet: Packet | None = None
    if parts.eap_message is not None:
        packet = read_packet(parts.eap_message)
        kind = _kind(message_type, packet)
    elif message_type == _REJECT:
        kind = Kind.REJECT
    else:
        raise Refused(9, Layer.MESSAGE, len(message))
    has_key_set = kind in (Kind.REQUEST, Kind.SUCCESS)
    key_set = _key_set(message, parts.abba) if has_key_set else None
    return Message(kind, len(message), key_set, parts.elements, packet)


# What the device answers


def eap_response(identifier: int, eap_type: int, body: bytes) -> bytes:
    """The EAP response to the request of this identifier."""
    length = 5 + len(body)
    return bytes([_EAP_RESPONSE, identifier, *length.to_bytes(2, "big"), eap_type]) + body


def identity_response(identifier: int, suci: bytes) -> bytes:
    """The EAP response that tells the identity, as SUCI."""
    return eap_response(identifier, _IDENTITY, suci)


def notification_response(identifier: int) -> bytes:
    """The EAP response that confirms a notification."""
    return eap_response(identifier, _NOTIFICATION, b"")


def nak_response(identifier: int, wanted: int) -> bytes:
    """The EAP response that asks for another EAP type."""
    return eap_response(identifier, _NAK, bytes([wanted]))


def authentication_response(packet: bytes) -> bytes:
    """The AUTHENTICATION RESPONSE that carries a packet."""
    tag = bytes([_RESPONSE, _EAP_MESSAGE])
    return _HEADER + tag + len(packet).to_bytes(2, "big") + packet


def put_in_front(buffer: bytearray, message: bytes) -> bool:
    """Writes a message to the front of a buffer, and nothing at all if it does not fit.

    Returns whether it fits.
    """
    fits = len(message) <= len(buffer)
    if fits:
        buffer[: len(message)] = message
    return fits


# The commands


def _packet_line(packet: Packet | None) -> str:
    if packet is None:
        return "  no EAP message"
    place = f"identifier {packet.identifier}, {len(packet.value)} bytes at {packet.place}"
    if packet.code == _EAP_REQUEST:
        return f"  EAP request, {place}, type {packet.type}"
    return f"  EAP {'success' if packet.code == _EAP_SUCCESS else 'failure'}, {place}"


def _message_lines(message: Message) -> list[str]:
    lines = [f"{message.kind.value}, {message.length} bytes"]
    if message.key_set:
        abba = message.key_set.abba
        lines.append(f"  ngKSI {message.key_set.ngksi}")
        lines.append(f"  ABBA at {abba.place}: {abba.value.hex()}")
    for element in message.elements:
        value = f"{len(element.value)} bytes at {element.start}"
        lines.append(f"  element {element.tag:02x} at {element.place}: {value}")
    lines.append(_packet_line(message.packet))
    return lines


def _answer_snn(name: bytes) -> list[str]:
    try:
        return [f"serving network name of a {read_network_name(name).value} network"]
    except Refused as refused:
        return [refused.told()]


def _answer_decode(message: bytes) -> list[str]:
    try:
        return _message_lines(read_message(message))
    except Refused as refused:
        return [refused.told()]


def commands() -> list[Command]:
    """The commands of this module."""
    return [
        Command(
            name="snn",
            values=(Text(name="name", plain=True),),
            answer=_answer_snn,
            explanation=(
                "snn TEXT                     "
                "whether a text is a serving network name, and of which kind",
            ),
        ),
        Command(
            name="decode",
            values=(Hex(name="message", plain=True),),
            answer=_answer_decode,
            explanation=(
                "decode HEX                   "
                "what a message of the network says, or why it is refused",
            ),
        ),
    ]
