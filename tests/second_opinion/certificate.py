"""A certificate as bytes: 8 bytes that name the format, then 24 bytes a lease, little-endian."""
import struct

from leases import Lease

MAGIC = b'XHCICRT1'
LEASE = struct.Struct('<IIQII')
FAULTS = {6: 'Magic', 7: 'Length', 8: 'Field'}


class BadCertificate(Exception):
    """What is wrong with bytes that are no certificate, by its number."""

    def __init__(self, number):
        super().__init__(f'{number} {FAULTS[number]}')
        self.number = number


def encode(leases):
    return MAGIC + b''.join(LEASE.pack(*lease) for lease in leases)


def has_fields(lease):
    """A kind that there is, a ring's ID where the lease names a ring, and its end behind its start."""
    return lease.kind <= 2 and (lease.kind == 2 or lease.ring <= 255) and lease.start < lease.end


def decode(data):
    """The leases that bytes spell, or BadCertificate with the least fault."""
    if data[:8] != MAGIC:
        raise BadCertificate(6)
    if len(data[8:]) % LEASE.size != 0:
        raise BadCertificate(7)
    leases = [Lease(*fields) for fields in LEASE.iter_unpack(data[8:])]
    if not all(has_fields(lease) for lease in leases):
        raise BadCertificate(8)
    return leases
