"""Writes run files by hand: used by findings/make and for trying things out.

    from runfile import run, job
    open("x.run", "wb").write(run(alpha=0.5, curve=[(1, 1), (2, 1)], jobs=[job(3, 1, 2, 0.5, 0)]))
"""
import struct


def job(kind, a=0.0, b=0.0, c=0.0, d=0.0):
    return struct.pack("<Q4d", kind, a, b, c, d)


def run(alpha=0.5, pillars=(), curve=(), coupons=(), grid=(), jobs=()):
    """A run file with no gaps; coupons without an own factor get 0."""
    lists = [
        struct.pack("<d", alpha),
        b"".join(struct.pack("<2d", *one) for one in pillars),
        b"".join(struct.pack("<2d", *one) for one in curve),
        b"".join(struct.pack("<3d", *(tuple(one) + (0.0,))[:3]) for one in coupons),
        b"".join(struct.pack("<2d", *one) for one in grid),
        b"".join(jobs),
    ]
    pairs = b""
    at = 48
    for one in lists:
        pairs += struct.pack("<2I", at, len(one))
        at += len(one)
    return pairs + b"".join(lists)


H = 1.0 / 365.0
