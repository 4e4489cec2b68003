"""Scripts of EAP methods with known answers: those of RFC 5448, and those of the documents."""

import hmac
import json
from collections.abc import Iterator
from typing import Any

import keys
from network import (
    AT_AUTN,
    AT_MAC,
    AT_RAND,
    SCRIPTED,
    Secrets,
    aka_request,
    attribute,
    challenge,
    challenge_reply,
    kdf,
    network_name,
    request,
    test_card_secrets,
)
from scripts import VECTORS, Vector, said

_KEY = bytes(16)
_KNOWN_RAND = bytes(range(16))
_KNOWN_AUTN = bytes.fromhex("030405060709 8000 0001020304048607")
_UNSEPARATED_AUTN = bytes.fromhex("030405060709 0000 0001020304040607")
_KNOWN_AUTS = "030405060709 0001020304040607"
_SNN = b"5G:mnc015.mcc234.3gppnetwork.org"
_SUPI = b"234150999999999"
_SUCI = b"suci"

_VERDICTS = {"go on": "verdict 1 (go on)", "granted": "verdict 2 (granted)"}
_WRONG = {
    21: "neither a challenge nor an identity request",
    22: "an attribute is cut or has the length zero",
    23: "an attribute is none of the subtype",
    24: "an attribute is missing, surplus or of a wrong length",
    25: "the identity asked for is not told",
    26: "the first AT_KDF is not 1",
    27: "the network name is not the SNN",
    28: "no card is in",
    29: "the separation bit is not set",
    30: "the card does not accept the MAC of AUTN",
    31: "the card does not accept the sequence number",
    32: "AT_MAC is wrong",
    33: "no row says go on or granted",
    34: "the key block is not wholly inside the store",
}
_CLIENT_ERROR = "02 09 000c 32 0e 0000 16 01 0000"
_REJECT = "02 09 0008 32 02 0000"


def _process(
    shows: str,
    packet: bytes,
    verdict: str | tuple[int, int],
    reply: str,
    held: bool = False,
    *,
    snn: bytes = _SNN,
    supi: bytes = _SUPI,
    suci: bytes = _SUCI,
) -> Vector:
    """A packet with the verdict on it, or the number and the place of the reason, and the reply."""
    if isinstance(verdict, tuple):
        number, place = verdict
        reason = f"number {number}, layer 4 (EAP method), place {place}: {_WRONG[number]}"
        first = f"verdict 3 (unproven): {reason}"
    else:
        first = _VERDICTS[verdict]
    return said(
        shows,
        b"process snn=%b supi=%b suci=%b %b" % (snn, supi, suci, packet.hex().encode()),
        first,
        f"  reply = {reply.replace(' ', '')}",
        "  block held" if held else "  no block held",
    )


def _refused(shows: str, number: int, place: int, *parts: str, subtype: int = 1) -> Vector:
    """A request with these attributes, as digits and blanks, that is refused before the card."""
    reply = _REJECT if number in (26, 27) else _CLIENT_ERROR
    packet = aka_request(9, subtype, *map(bytes.fromhex, parts))
    return _process(shows, packet, (number, place), reply)


def _test_card(sequence: int) -> Vector:
    return said(
        "a test card",
        b"card test key=%b sequence=%d" % (_KEY.hex().encode(), sequence),
        "EAP-AKA' with a test card",
    )


def _known_k_aut(autn: bytes = _KNOWN_AUTN) -> bytes:
    return test_card_secrets(_KEY, _KNOWN_RAND).k_aut(autn, _SNN, _SUPI)


def _known_challenge(
    autn: bytes = _KNOWN_AUTN, snn: bytes = _SNN, k_aut: bytes | None = None
) -> bytes:
    return challenge(9, _KNOWN_RAND, autn, snn, _known_k_aut(autn) if k_aut is None else k_aut)


def _known_reply(autn: bytes = _KNOWN_AUTN) -> str:
    return challenge_reply(9, _KNOWN_RAND, _known_k_aut(autn)).hex()


def _known_block() -> str:
    secrets = test_card_secrets(_KEY, _KNOWN_RAND)
    chain = keys.key_chain(secrets.ck, secrets.ik, _KNOWN_AUTN, _SNN, _SUPI, b"")
    return f"block = {(chain.msk + chain.emsk).hex()}"


_STALE = f"02 09 001c 32 04 0000 0404 {_KNOWN_AUTS} 18010001"
_AUTN_PLACE = 28
_MAC_PLACE = 88


def _rfc5448(place: int, vector: dict[str, Any]) -> Iterator[Vector]:
    """A case of RFC 5448 through the method."""
    source = f"RFC 5448, case {place}"
    yield said(source, b"card recorded", "EAP-AKA' with a recorded card")
    fields = " ".join(f"{name}={vector[name]}" for name in ("rand", "autn", "res", "ck", "ik"))
    yield said(source, f"row outcome=good {fields}".encode(), "row 1")
    snn, supi = vector["network"].encode(), vector["identity"].encode()
    k_aut = bytes.fromhex(vector["k_aut"])
    rand, autn = bytes.fromhex(vector["rand"]), bytes.fromhex(vector["autn"])
    packet = challenge(9, rand, autn, snn, k_aut)
    reply = challenge_reply(9, bytes.fromhex(vector["res"]), k_aut).hex()
    yield _process(source, packet, "granted", reply, True, snn=snn, supi=supi)
    yield said(source, b"block", f"block = {vector['msk']}{vector['emsk']}")


def vectors() -> list[Vector]:
    """The cases of RFC 5448 whose RES has 16 bytes, through the method."""
    known = json.loads(VECTORS.read_text(encoding="utf-8"))["rfc5448"]
    return [
        line
        for place, vector in enumerate(known, 1)
        if len(vector["res"]) == 32
        for line in _rfc5448(place, vector)
    ]


def _known_identities() -> Iterator[Vector]:
    yield _test_card(0)
    told = "02 09 0010 32 05 0000 0e 02 0004 73756369"
    asked = aka_request(9, 5, bytes.fromhex("0d010000"))
    yield _process("AT_ANY_ID_REQ", asked, "go on", told)
    asked = aka_request(9, 5, bytes.fromhex("1101ffff"))
    yield _process("AT_FULLAUTH_ID_REQ, reserved bytes", asked, "go on", told)
    asked = asked[:6] + b"\xff\xff" + asked[8:]
    yield _process("reserved bytes of the packet", asked, "go on", told)
    asked = aka_request(0, 5, bytes.fromhex("80020000 00000000 0d010000 ff010000"))
    yield _process("attributes passed over", asked, "go on", told.replace("02 09", "02 00"))
    told = "02 09 0010 32 05 0000 0e 02 0001 73 000000"
    asked = aka_request(9, 5, bytes.fromhex("0d010000"))
    yield _process("a SUCI of 1 byte", asked, "go on", told, suci=b"s")
    told = "02 09 010c 32 05 0000 0e 41 00ff" + "73" * 255 + "00"
    yield _process("a SUCI of 255 bytes", asked, "go on", told, suci=b"s" * 255)
    yield _refused("AT_PERMANENT_ID_REQ", 25, 8, "0a010000", subtype=5)
    yield _refused("the same further on", 25, 16, "c8020000 00000000 0a010000", subtype=5)
    yield _process("a challenge", _known_challenge(), "granted", _known_reply(), True)
    yield said("its block", b"block", _known_block())
    yield _refused("a block is held", 25, 8, "0d010000", subtype=5)
    yield said("it is not held any more", b"block", "no block")
    told = "02 09 0010 32 05 0000 0e 02 0004 73756369"
    yield _process("so the identity is told", asked, "go on", told)


def _known_forms() -> Iterator[Vector]:
    yield _test_card(0)
    yield _process("5 bytes", bytes.fromhex("0109000532"), (21, 0), _CLIENT_ERROR)
    yield _process("7 bytes", bytes.fromhex("01090007320500"), (21, 0), _CLIENT_ERROR)
    yield _refused("subtype 0", 21, 0, subtype=0)
    yield _refused("subtype 2, an attribute cut", 21, 0, "0d", subtype=2)
    yield _refused("subtype 133", 21, 0, "0d010000", subtype=133)
    yield _refused("no length byte", 22, 8, "0d", subtype=5)
    yield _refused("a length of zero", 22, 8, "0d000000", subtype=5)
    yield _refused("a byte too few", 22, 8, "0d0100", subtype=5)
    yield _refused("a word too few", 22, 8, "0d020000", subtype=5)
    yield _refused("of one passed over", 22, 12, "0d010000", "80000000", subtype=5)
    yield _refused("a byte at the end", 22, 12, "0d010000", "0d", subtype=5)
    yield _refused("foreign, then cut", 22, 12, "03010000", "80", subtype=5)
    yield _refused("foreign in a challenge", 23, 8, "0d010000")
    yield _refused("foreign in an identity request", 23, 8, "18010001", subtype=5)
    yield _refused("type 127", 23, 16, "80020000 00000000", "7f010000", subtype=5)
    yield _refused("type 0", 23, 8, "00010000", subtype=5)
    yield _refused(
        "a wrong length, then foreign", 23, 16, "0d020000 00000000", "16010000", subtype=5
    )
    yield _refused("no attribute", 24, 0, subtype=5)
    yield _refused("no attribute in a challenge", 24, 0)
    yield _refused("only one passed over", 24, 0, "80010000", subtype=5)
    yield _refused("two words", 24, 8, "0d020000 00000000", subtype=5)
    yield _refused("a second one", 24, 12, "0d010000", "0d010000", subtype=5)
    yield _refused(
        "a second one of another type", 24, 16, "0d010000", "80010000", "0a010000", subtype=5
    )
    yield _refused("AT_PERMANENT_ID_REQ of two words", 24, 8, "0a020000 00000000", subtype=5)
    rand, autn, mac = ("010500 00" + "00" * 16, "020500 00" + "00" * 16, "0b0500 00" + "00" * 16)
    name = network_name(_SNN).hex()
    yield _refused("no AT_RAND", 24, 0, autn, mac, name, "18010001")
    yield _refused("no AT_AUTN", 24, 0, rand, mac, name, "18010001")
    yield _refused("no AT_MAC", 24, 0, rand, autn, name, "18010001")
    yield _refused("no AT_KDF_INPUT", 24, 0, rand, autn, mac, "18010001")
    yield _refused("no AT_KDF", 24, 0, rand, autn, mac, name)
    yield _refused("a second AT_RAND, none of the others", 24, 28, rand, rand)
    yield _refused(
        "AT_RAND of four words", 24, 8, "01040000" + "00" * 12, autn, mac, name, "18010001"
    )
    yield _refused(
        "AT_MAC of six words", 24, 48, rand, autn, "0b060000" + "00" * 20, name, "18010001"
    )
    yield _refused("AT_KDF of two words", 24, 8, "18020001 00000000", rand, autn, mac, name)
    yield _refused("nine AT_KDF", 24, 40, *["18010001"] * 9, rand, autn, mac, name)
    yield _refused("the second AT_AUTN is first", 24, 28, autn, autn, *["18010001"] * 9)
    yield _refused(
        "a name shorter than its words", 24, 8, "17020000 00000000", rand, autn, mac, "18010001"
    )
    yield _refused("a name longer than its words", 24, 8, "17010001", rand, autn, mac, "18010001")
    yield _refused(
        "a name of 65,535 bytes", 24, 8, "1702ffff 41424344", rand, autn, mac, "18010001"
    )
    yield _refused("AT_KDF 0", 26, 8, "18010000", rand, autn, mac, name)
    yield _refused("AT_KDF 256, another name", 26, 68, rand, autn, mac, "18010100", "17010000")
    yield _refused("AT_KDF 257", 26, 8, "18010101", rand, autn, mac, name)
    yield _refused("AT_KDF 2 before 1", 26, 8, "18010002", "18010001", rand, autn, mac, name)
    yield _refused("no name", 27, 12, "18010001", "17010000", rand, autn, mac)
    yield _refused("another name", 27, 12, "18010001", "17020004 574c414e", rand, autn, mac)


def _known_challenges() -> Iterator[Vector]:
    wrong_mac = _known_challenge(k_aut=bytes(32))
    stale = (31, _AUTN_PLACE)
    yield _test_card(0)
    longer = _known_challenge(snn=_SNN + b":123456ABCDE")
    yield _process("the card is not asked", longer, (27, 52), _REJECT)
    yield _process("so the number is new", _known_challenge(), "granted", _known_reply(), True)
    yield _process("the same again", _known_challenge(), stale, _STALE)
    yield said("unproven leaves no block", b"block", "no block")
    yield _test_card(0)
    yield _process("a wrong MAC", wrong_mac, (32, _MAC_PLACE), _CLIENT_ERROR)
    yield _process("the card keeps the number", _known_challenge(), stale, _STALE)
    yield _process("a stale number, a wrong MAC", wrong_mac, stale, _STALE)
    yield _test_card(0)
    unseparated = _known_challenge(_UNSEPARATED_AUTN)
    yield _process("no separation bit", unseparated, (29, _AUTN_PLACE), _REJECT)
    yield _process("the card keeps the number", _known_challenge(), stale, _STALE)
    yield _process("no separation bit, stale", unseparated, (29, _AUTN_PLACE), _REJECT)
    changed = _KNOWN_AUTN[:15] + b"\6"
    yield _process("AUTN changed", _known_challenge(changed), (30, _AUTN_PLACE), _REJECT)
    changed = _UNSEPARATED_AUTN[:15] + b"\6"
    yield _process("and no separation bit", _known_challenge(changed), (29, _AUTN_PLACE), _REJECT)
    yield _test_card(2**48 - 1)
    told = "02 09 001c 32 04 0000 0404 fcfbfaf9f8f7 fffefdfcfbfa0607 18010001"
    yield _process("the largest number", _known_challenge(), stale, told)
    yield _test_card(0)
    yield _process("a challenge", _known_challenge(), "granted", _known_reply(), True)
    yield said("clearing", b"clear", "cleared")
    yield said("leaves no block", b"block", "no block")
    yield _process("and the card's number", _known_challenge(), stale, _STALE)
    functions = b"".join(map(kdf, (1, 2, 65535, 1, 0, 6, 7, 8)))
    packet = _known_challenge()
    packet = packet[:48] + functions + packet[52:]
    packet = packet[:2] + len(packet).to_bytes(2, "big") + packet[4:]
    told = f"02 09 0038 32 04 0000 0404 {_KNOWN_AUTS} {functions.hex()}"
    yield _process("eight AT_KDF", packet, stale, told)


def _known_macs() -> Iterator[Vector]:
    """Challenges whose reserved bytes and padding are not zero, and what the MAC covers."""
    name = b"\x17\x0a\0\x21" + _SNN + b"x\xff\xff\xff"
    yield _test_card(0)
    parts = (
        b"\xc8\1\xaa\xaa",
        attribute(AT_RAND, b"\xff\xff" + _KNOWN_RAND),
        attribute(AT_AUTN, b"\xff\xff" + _KNOWN_AUTN),
        kdf(1),
        name,
        attribute(AT_MAC, b"\0\0" + bytes(16)),
    )
    before = aka_request(9, 1, *parts)
    before = before[:6] + b"\xff\xff" + before[8:]
    longer = _SNN + b"x"
    secrets = test_card_secrets(_KEY, _KNOWN_RAND)
    k_aut = secrets.k_aut(_KNOWN_AUTN, longer, _SUPI)
    mac = hmac.digest(k_aut, before, "sha256")[:16]
    packet = before[:-18] + b"\xff\xff" + mac
    reply = challenge_reply(9, _KNOWN_RAND, k_aut).hex()
    yield _process("reserved bytes and padding", packet, "granted", reply, True, snn=longer)
    for at in (6, 11, 14, 35, len(before) - 21):
        yield _test_card(0)
        changed = packet[:at] + bytes([packet[at] ^ 1]) + packet[at + 1 :]
        place = len(before) - 20
        yield _process(f"byte {at} changed", changed, (32, place), _CLIENT_ERROR, snn=longer)


def _recorded_line(outcome: str, autn: bytes = _KNOWN_AUTN, **values: str) -> bytes:
    fields = {"rand": _KNOWN_RAND.hex(), "autn": autn.hex(), "outcome": outcome, **values}
    return b"row " + " ".join(f"{name}={value}" for name, value in fields.items()).encode()


def _known_recorded() -> Iterator[Vector]:
    card = said("a recorded card", b"card recorded", "EAP-AKA' with a recorded card")
    good = {"res": "d0" * 16, "ck": "c0" * 16, "ik": "b0" * 16}
    secrets = Secrets(*(bytes.fromhex(value) for value in good.values()))
    k_aut = secrets.k_aut(_KNOWN_AUTN, _SNN, _SUPI)
    reply = challenge_reply(9, secrets.res, k_aut).hex()
    packet = _known_challenge(k_aut=k_aut)
    other = _known_challenge(_UNSEPARATED_AUTN)
    yield card
    yield _process("no rows", packet, (28, 0), _CLIENT_ERROR)
    yield _process("no rows, no separation bit", other, (28, 0), _CLIENT_ERROR)
    yield card
    yield said("a row", _recorded_line("good", **good), "row 1")
    yield said("a second one, never used", _recorded_line("out"), "row 2")
    yield said("one of another AUTN", _recorded_line("out", _UNSEPARATED_AUTN), "row 3")
    yield _process("the first row counts", packet, "granted", reply, True)
    yield _process("again", packet, "granted", reply, True)
    yield _process("the card is out", other, (28, 0), _CLIENT_ERROR)
    yield _process("a wrong MAC", _known_challenge(), (32, _MAC_PLACE), _CLIENT_ERROR)
    unknown = _known_challenge(_KNOWN_AUTN[:15] + b"\0")
    yield _process("no row", unknown, (30, _AUTN_PLACE), _REJECT)
    yield card
    yield said("a stale row", _recorded_line("stale", auts="a5" * 14), "row 1")
    yield said("a wrong row", _recorded_line("wrong", _UNSEPARATED_AUTN), "row 2")
    told = "02 09 001c 32 04 0000 0404 " + "a5" * 14 + "18010001"
    yield _process("stale", packet, (31, _AUTN_PLACE), told)
    yield _process("wrong, no separation bit", other, (29, _AUTN_PLACE), _REJECT)


def _known_scripted() -> Iterator[Vector]:
    store = bytes(range(130))
    yield said(
        "a scripted method",
        b"scripted store=" + store.hex().encode(),
        "scripted method, 130 bytes of store",
    )
    for number, words in enumerate(
        (
            b"identifier=0 outcome=go-on",
            b"identifier=1 outcome=granted at=0",
            b"identifier=2 outcome=granted at=2",
            b"identifier=3 outcome=granted at=3",
            b"identifier=4 outcome=refuse",
            b"identifier=4 outcome=go-on",
            b"outcome=granted at=0065535 identifier=0255",
        ),
        1,
    ):
        yield said("a row", b"row " + words, f"row {number}")

    def asked(
        shows: str, identifier: int, verdict: str | tuple[int, int], held: bool, body: bytes = b""
    ) -> Vector:
        packet = request(identifier, SCRIPTED, body)
        return _process(shows, packet, verdict, f"02 {identifier:02x} 0005 fd", held)

    yield asked("go on", 0, "go on", False)
    yield asked("granted", 1, "granted", True, b"body")
    yield asked("go on keeps the block", 0, "go on", True)
    yield said("it is still there", b"block", f"block = {store[:128].hex()}")
    yield asked("granted at the end", 2, "granted", True)
    yield said("another block", b"block", f"block = {store[2:].hex()}")
    yield asked("one byte too far", 3, (34, 0), False)
    yield asked("granted", 1, "granted", True)
    yield asked("a row that refuses", 4, (33, 0), False)
    yield asked("no row", 5, (33, 0), False)
    yield asked("far too far", 255, (34, 0), False)
    yield asked("granted", 1, "granted", True)
    yield said("clearing", b"clear", "cleared")
    yield said("leaves no block", b"block", "no block")
    yield asked("and the rows", 1, "granted", True)
    refused = "refused: not an EAP request of type 253 with 5 to 2048 bytes"
    yield said("another type", b"process snn= supi= suci=s 0101000532", refused)
    yield said("nothing has changed", b"block", f"block = {store[:128].hex()}")
    yield said("a new method", b"scripted store=", "scripted method, 0 bytes of store")
    yield said("has no block", b"block", "no block")
    yield asked("and no row", 1, (33, 0), False)


def _known_packets() -> Iterator[Vector]:
    refused = "refused: not an EAP request of type 50 with 5 to 2048 bytes"
    yield _test_card(0)
    yield _process("a challenge", _known_challenge(), "granted", _known_reply(), True)
    for packet in (
        "-",
        "01090004",
        "01090006 32",
        "01090004 32",
        "02090005 32",
        "00090005 32",
        "01090005 31",
        "01090005 fd",
        "01090801 3205" + "00" * 2043,
        "0109ffff 3205" + "00" * 65_529,
        "01090005 3205" + "00" * 65_535,
    ):
        word = packet.replace(" ", "").encode()
        yield said("not taken", b"process snn= supi= suci=s " + word, refused)
    yield said("nothing has changed", b"block", _known_block())
    longest = bytes.fromhex("01090800 32050000 0d010000") + b"\x80\xff" + bytes(1018)
    longest += b"\x81\xfe" + bytes(1014)
    told = "02 09 000c 32 0e 0000 16 01 0000"
    yield _process("2,048 bytes", longest, (25, 8), told)


def known_answers() -> list[Vector]:
    """Methods and requests, each with the answer that the documents give it, as one script."""
    makers = (
        _known_identities,
        _known_forms,
        _known_challenges,
        _known_macs,
        _known_recorded,
        _known_scripted,
        _known_packets,
    )
    return [vector for make in makers for vector in make()]
