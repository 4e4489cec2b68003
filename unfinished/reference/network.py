"""The network's end of EAP-AKA', for scripts: requests, and what the test card's network knows."""

import hmac
from typing import NamedTuple

import keys

AKA_PRIME = 50
SCRIPTED = 253

CHALLENGE = 1
IDENTITY = 5

AT_RAND, AT_AUTN, AT_MAC, AT_KDF_INPUT, AT_KDF = 1, 2, 11, 23, 24
AT_PERMANENT_ID_REQ, AT_ANY_ID_REQ, AT_FULLAUTH_ID_REQ = 10, 13, 17


def _xor(left: bytes, right: bytes) -> bytes:
    return bytes(a ^ b for a, b in zip(left, right, strict=True))


def attribute(kind: int, value: bytes, filling: bytes = bytes(3)) -> bytes:
    """An attribute with this value, which follows the length byte and is filled to full words."""
    words = (len(value) + 5) // 4
    return (bytes([kind, words]) + value + filling)[: 4 * words]


def request(identifier: int, eap_type: int, body: bytes) -> bytes:
    """An EAP request."""
    length = 5 + len(body)
    return bytes([1, identifier, *length.to_bytes(2, "big"), eap_type]) + body


def aka_request(identifier: int, subtype: int, *attributes: bytes) -> bytes:
    """A request of EAP-AKA', whose reserved bytes are zero."""
    return request(identifier, AKA_PRIME, bytes([subtype, 0, 0]) + b"".join(attributes))


def network_name(name: bytes) -> bytes:
    """The AT_KDF_INPUT of this network name."""
    return attribute(AT_KDF_INPUT, len(name).to_bytes(2, "big") + name)


def kdf(number: int) -> bytes:
    """The AT_KDF of this number."""
    return attribute(AT_KDF, number.to_bytes(2, "big"))


def challenge(identifier: int, rand: bytes, autn: bytes, snn: bytes, k_aut: bytes) -> bytes:
    """A challenge as a network sends it, with the right MAC."""
    packet = aka_request(
        identifier,
        CHALLENGE,
        attribute(AT_RAND, bytes(2) + rand),
        attribute(AT_AUTN, bytes(2) + autn),
        kdf(1),
        network_name(snn),
        attribute(AT_MAC, bytes(18)),
    )
    return packet[:-16] + hmac.digest(k_aut, packet, "sha256")[:16]


def challenge_reply(identifier: int, res: bytes, k_aut: bytes) -> bytes:
    """The reply to a challenge that is granted."""
    start = bytes([2, identifier, 0, 48, AKA_PRIME, 1, 0, 0, 3, 5, 0, 128]) + res
    start += bytes([AT_MAC, 5, 0, 0])
    return start + hmac.digest(k_aut, start + bytes(16), "sha256")[:16]


class Secrets(NamedTuple):
    """What a card gives for a challenge that it finds good."""

    res: bytes
    ck: bytes
    ik: bytes

    def k_aut(self, autn: bytes, snn: bytes, supi: bytes) -> bytes:
        """The key of the challenge's MAC."""
        return keys.key_chain(self.ck, self.ik, autn, snn, supi, b"").k_aut


def test_card_secrets(key: bytes, rand: bytes) -> Secrets:
    """What the test card gives."""
    x = _xor(key, rand)
    return Secrets(x, x[1:] + x[:1], x[2:] + x[:2])


def test_card_autn(key: bytes, rand: bytes, sequence: int, amf_field: bytes) -> bytes:
    """The AUTN of a network that knows the test card's key."""
    x = _xor(key, rand)
    plain = sequence.to_bytes(6, "big")
    return _xor(plain, x[3:9]) + amf_field + _xor(plain + amf_field, x[:8])
