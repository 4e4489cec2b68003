"""EAP methods: what every method keeps, and the scripted method.

A method says what it finds of a request. What that does to the block and to the reply is the same
for every method, and stands in `Method.process`.
"""

from abc import ABC, abstractmethod
from collections.abc import Iterable
from dataclasses import dataclass
from enum import Enum, IntEnum
from typing import NamedTuple

from messages import EAP_REQUEST, LONGEST_MESSAGE, Layer, Refused, eap_response

BLOCK_BYTES = 128


class Subscription(NamedTuple):
    """What the device knows of itself and of its network."""

    snn: bytes
    supi: bytes


class Verdict(IntEnum):
    """What a method finds."""

    GO_ON = 1
    GRANTED = 2
    UNPROVEN = 3


@dataclass(frozen=True)
class GoOn:
    """The request is answered, and nothing is decided."""

    body: bytes


@dataclass(frozen=True)
class Granted:
    """The request is shown to come from the network, and leaves this block."""

    body: bytes
    block: bytes


@dataclass(eq=False)
class Unproven(Exception):
    """The request is not shown to come from the network, by this reason."""

    number: int
    place: int
    body: bytes


class Processed(NamedTuple):
    """What processing a request gives; only an unproven one has a reason."""

    verdict: Verdict
    reply: bytes
    reason: Refused | None


class Method(ABC):
    """An EAP method, with the block that it holds."""

    eap_type: int

    def __init__(self) -> None:
        self.block: bytes | None = None

    @abstractmethod
    def find(self, packet: bytes, subscription: Subscription, suci: bytes) -> GoOn | Granted:
        """What the method finds of a request. Raises Unproven where that is it."""

    def takes(self, packet: bytes) -> bool:
        """Whether this is a request for the method that a message could carry."""
        return (
            5 <= len(packet) <= LONGEST_MESSAGE
            and packet[0] == EAP_REQUEST
            and int.from_bytes(packet[2:4], "big") == len(packet)
            and packet[4] == self.eap_type
        )

    def process(self, packet: bytes, subscription: Subscription, suci: bytes) -> Processed:
        """Processes a request that the method takes."""
        reason: Refused | None = None
        try:
            found: GoOn | Granted | Unproven = self.find(packet, subscription, suci)
        except Unproven as unproven:
            found = unproven
        if isinstance(found, GoOn):
            verdict = Verdict.GO_ON
        elif isinstance(found, Granted):
            verdict = Verdict.GRANTED
            self.block = found.block
        else:
            verdict = Verdict.UNPROVEN
            self.block = None
            reason = Refused(found.number, Layer.METHOD, found.place)
        return Processed(verdict, eap_response(packet[1], self.eap_type, found.body), reason)

    def clear(self) -> None:
        """Ends a run: no block is held then. What else the method holds, it keeps."""
        self.block = None


# The scripted method


class Saying(Enum):
    """What a row of the scripted method says, by its word on a line."""

    GO_ON = "go-on"
    GRANTED = "granted"
    REFUSE = "refuse"


class Row(NamedTuple):
    """A row: for the request of this identifier. Only one that grants has a place in the store."""

    identifier: int
    saying: Saying
    at: int | None


class Scripted(Method):
    """The scripted method."""

    eap_type = 253

    def __init__(self, rows: Iterable[Row], store: bytes) -> None:
        super().__init__()
        self._rows = tuple(rows)
        self._store = store

    def find(self, packet: bytes, subscription: Subscription, suci: bytes) -> GoOn | Granted:
        row = next((row for row in self._rows if row.identifier == packet[1]), None)
        if row is not None and row.saying is Saying.GO_ON:
            return GoOn(b"")
        if row is None or row.at is None:
            raise Unproven(33, 0, b"")
        block = self._store[row.at : row.at + BLOCK_BYTES]
        if len(block) < BLOCK_BYTES:
            raise Unproven(34, 0, b"")
        return Granted(b"", block)
