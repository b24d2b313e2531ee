"""How secrets cross the bus: the sessions of the Secret Service API, plain or encrypted. Diffie-Hellman is in the group
of 1024 bits of RFC 2409, section 6.2."""
from __future__ import annotations

import os
import secrets
from typing import NamedTuple, Optional

from cryptography.hazmat.primitives import hashes, padding
from cryptography.hazmat.primitives.ciphers import Cipher, algorithms, modes
from cryptography.hazmat.primitives.kdf.hkdf import HKDF

PLAIN, ENCRYPTED = "plain", "dh-ietf1024-sha256-aes128-cbc-pkcs7"
PRIME = int(
    "FFFFFFFFFFFFFFFFC90FDAA22168C234C4C6628B80DC1CD129024E088A67CC74020BBEA63B139B22514A08798E3404DD"
    "EF9519B3CD3A431B302B0A6DF25F14374FE1356D6D51C245E485B576625E7EC6F44C42E9A637ED6B0BFF5CB6F406B7ED"
    "EE386BFB5A899FA5AE9F24117C4B1FE649286651ECE65381FFFFFFFFFFFFFFFF", 16)
LONG = 128  # bytes of a number of the group
BLOCK = 16  # bytes of AES's key, and of its block


class Session(NamedTuple):
    """Whose it is, by the unique name on the bus, and its key; None where it is plain."""

    owner: str
    key: Optional[bytes]


def agree(theirs: bytes) -> tuple[bytes, bytes]:
    """The public number of this side, and the key. ValueError where theirs is no element that a secret can come of."""
    number = int.from_bytes(theirs, "big")
    if len(theirs) > LONG or not 1 < number < PRIME - 1:
        raise ValueError
    private = 2 + secrets.randbelow(PRIME - 3)
    shared = pow(number, private, PRIME).to_bytes(LONG, "big")
    key = HKDF(algorithm=hashes.SHA256(), length=BLOCK, salt=None, info=b"").derive(shared)
    return pow(2, private, PRIME).to_bytes(LONG, "big"), key


def seal(session: Session, secret: bytes) -> tuple[bytes, bytes]:
    """The parameters and the value of a secret for a session."""
    if session.key is None:
        return b"", secret
    start, padder = os.urandom(BLOCK), padding.PKCS7(8 * BLOCK).padder()
    cipher = Cipher(algorithms.AES(session.key), modes.CBC(start)).encryptor()
    return start, cipher.update(padder.update(secret) + padder.finalize()) + cipher.finalize()


def unseal(session: Session, parameters: bytes, value: bytes) -> bytes:
    """ValueError where they are none of this session."""
    if session.key is None:
        if parameters:
            raise ValueError
        return value
    cipher = Cipher(algorithms.AES(session.key), modes.CBC(parameters)).decryptor()
    unpadder = padding.PKCS7(8 * BLOCK).unpadder()
    return unpadder.update(cipher.update(value) + cipher.finalize()) + unpadder.finalize()
