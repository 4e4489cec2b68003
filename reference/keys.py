"""Digests and the key chain, and the commands `sha256`, `hmac` and `derive`."""

import hashlib
from dataclasses import dataclass

from script import Command, Hex, Text

_BLOCK = 64
_XOR_IPAD = bytes(byte ^ 0x36 for byte in range(256))
_XOR_OPAD = bytes(byte ^ 0x5C for byte in range(256))

_MK_BYTES = 208
_LONGEST_PARAMETER = 65_535


def sha256(message: bytes) -> bytes:
    """SHA-256 of FIPS 180-4."""
    return hashlib.sha256(message).digest()


def hmac(key: bytes, *parts: bytes) -> bytes:
    """HMAC-SHA-256 of RFC 2104, of the parts one after another."""
    if len(key) > _BLOCK:
        key = sha256(key)
    key = key.ljust(_BLOCK, b"\0")
    inner = sha256(key.translate(_XOR_IPAD) + b"".join(parts))
    return sha256(key.translate(_XOR_OPAD) + inner)


def prf(key: bytes, seed: bytes) -> bytes:
    """PRF' of RFC 5448, section 3.4: the first 208 bytes of T1 || T2 || .. || T7."""
    stream = link = b""
    for place in range(1, 8):
        link = hmac(key, link, seed, bytes([place]))
        stream += link
    return stream[:_MK_BYTES]


def kdf(key: bytes, function_code: int, *parameters: bytes) -> bytes:
    """KDF of TS 33.220, annex B.2: each parameter is followed by its length as two bytes."""
    parts = [bytes([function_code])]
    for parameter in parameters:
        parts += [parameter, len(parameter).to_bytes(2, "big")]
    return hmac(key, *parts)


@dataclass(frozen=True)
class KeyChain:
    """Every key of a log-on. `ck_prime` and `ik_prime` are CK' and IK'."""

    ck_prime: bytes
    ik_prime: bytes
    k_encr: bytes
    k_aut: bytes
    k_re: bytes
    msk: bytes
    emsk: bytes
    kausf: bytes
    kseaf: bytes
    kamf: bytes


def key_chain(ck: bytes, ik: bytes, autn: bytes, snn: bytes, supi: bytes, abba: bytes) -> KeyChain:
    """The keys of a log-on, from the card's CK and IK to the KAMF."""
    primes = kdf(ck + ik, 0x20, snn, autn[:6])
    ck_prime, ik_prime = primes[:16], primes[16:]
    mk = prf(ik_prime + ck_prime, b"EAP-AKA'" + supi)
    emsk = mk[144:208]
    kausf = emsk[:32]
    kseaf = kdf(kausf, 0x6C, snn)
    return KeyChain(
        ck_prime=ck_prime,
        ik_prime=ik_prime,
        k_encr=mk[0:16],
        k_aut=mk[16:48],
        k_re=mk[48:80],
        msk=mk[80:144],
        emsk=emsk,
        kausf=kausf,
        kseaf=kseaf,
        kamf=kdf(kseaf, 0x6D, supi, abba),
    )


def _key_line(name: str, key: bytes) -> str:
    return f"  {name:<7}= {key.hex()}"


def _answer_sha256(message: bytes) -> list[str]:
    return [f"sha256 = {sha256(message).hex()}"]


def _answer_hmac(key: bytes, message: bytes) -> list[str]:
    return [f"hmac = {hmac(key, message).hex()}"]


def _answer_derive(
    ck: bytes, ik: bytes, autn: bytes, snn: bytes, supi: bytes, abba: bytes
) -> list[str]:
    keys = key_chain(ck, ik, autn, snn, supi, abba)
    return [
        "CK' || IK' = KDF(CK || IK, 20, SNN, AUTN[0..5])",
        _key_line("CK'", keys.ck_prime),
        _key_line("IK'", keys.ik_prime),
        "MK = PRF'(IK' || CK', \"EAP-AKA'\" || SUPI)",
        _key_line("K_encr", keys.k_encr),
        _key_line("K_aut", keys.k_aut),
        _key_line("K_re", keys.k_re),
        _key_line("MSK", keys.msk),
        _key_line("EMSK", keys.emsk),
        "KAUSF = first 32 bytes of EMSK",
        _key_line("KAUSF", keys.kausf),
        "KSEAF = KDF(KAUSF, 6C, SNN)",
        _key_line("KSEAF", keys.kseaf),
        "KAMF = KDF(KSEAF, 6D, SUPI, ABBA)",
        _key_line("KAMF", keys.kamf),
    ]


def commands() -> list[Command]:
    """The commands of this module."""
    return [
        Command(
            name="sha256",
            values=(Hex(name="message", plain=True),),
            answer=_answer_sha256,
            explanation=("sha256 HEX                   the SHA-256 digest of the bytes",),
        ),
        Command(
            name="hmac",
            values=(Hex(name="key"), Hex(name="message", plain=True)),
            answer=_answer_hmac,
            explanation=(
                "hmac key=HEX HEX             the HMAC-SHA-256 of the bytes under the key",
            ),
        ),
        Command(
            name="derive",
            values=(
                Hex(name="ck", size=16),
                Hex(name="ik", size=16),
                Hex(name="autn", size=16),
                Text(name="snn", most=_LONGEST_PARAMETER),
                Text(name="supi", most=_LONGEST_PARAMETER),
                Hex(name="abba", most=_LONGEST_PARAMETER),
            ),
            answer=_answer_derive,
            explanation=(
                "derive ck=HEX ik=HEX autn=HEX snn=TEXT supi=TEXT abba=HEX",
                "                             every key of a log-on, from CK and IK to KAMF",
            ),
        ),
    ]
