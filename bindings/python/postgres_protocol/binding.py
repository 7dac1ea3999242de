"""The hash of a server's certificate that binds SCRAM to a TLS channel (RFC 5929, tls-server-end-point)."""
import hashlib
from typing import Optional, Tuple

#: The hash functions by the algorithms that sign certificates; MD5 and SHA-1 give way to SHA-256 (RFC 5929, 4.1).
_HASHES = {
    '2a864886f70d01010b': 'sha256', '2a864886f70d01010c': 'sha384', '2a864886f70d01010d': 'sha512', '2a864886f70d01010e': 'sha224',
    '2a864886f70d010104': 'sha256', '2a864886f70d010105': 'sha256', '2a8648ce3d0401': 'sha256', '2a8648ce3d040301': 'sha224',
    '2a8648ce3d040302': 'sha256', '2a8648ce3d040303': 'sha384', '2a8648ce3d040304': 'sha512',
}


def _element(data: bytes, at: int) -> Tuple[int, int]:
    """Where the content of the DER element at a place begins, and where it ends."""
    length, begin = data[at + 1], at + 2
    if length >= 128:
        count = length - 128
        length, begin = int.from_bytes(data[begin:begin + count], 'big'), begin + count
    return begin, begin + length


def certificate_hash(certificate: Optional[bytes]) -> Optional[bytes]:
    """The hash of a certificate in DER; None where there is none, or its algorithm names no hash function (as that of Ed25519)."""
    if certificate is None:
        return None
    body, _ = _element(certificate, 0)
    _, end = _element(certificate, body)
    algorithm, _ = _element(certificate, end)
    begin, last = _element(certificate, algorithm)
    name = _HASHES.get(certificate[begin:last].hex())
    return None if name is None else hashlib.new(name, certificate).digest()
