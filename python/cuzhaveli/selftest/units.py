"""Units: checksum blocks by an XXH64 written here, damage that comes back, and film in order."""

from __future__ import annotations

import cuzhaveli

from .. import WIDTHS, Shape
from .check import Check

_PRIMES = (
    0x9E3779B185EBCA87,
    0xC2B2AE3D27D4EB4F,
    0x165667B19E3779F9,
    0x85EBCA77C2B2AE63,
    0x27D4EB2F165667C5,
)
_MASK = (1 << 64) - 1
_GUARD = 0xFFFFFFFF


def _turned(number: int, bits: int) -> int:
    return (number << bits | number >> 64 - bits) & _MASK


def _round(total: int, word: int) -> int:
    return _turned((total + word * _PRIMES[1]) & _MASK, 31) * _PRIMES[0] & _MASK


def _lanes(data: bytes, seed: int) -> int:
    """The checksum of all whole stretches of 32 bytes."""
    first, second = _PRIMES[:2]
    lanes = [one & _MASK for one in (seed + first + second, seed + second, seed, seed - first)]
    for at in range(0, len(data) // 32 * 32, 8):
        lane = at // 8 % 4
        lanes[lane] = _round(lanes[lane], int.from_bytes(data[at : at + 8], "little"))
    total = sum(_turned(lane, bits) for lane, bits in zip(lanes, (1, 7, 12, 18))) & _MASK
    for lane in lanes:
        total = ((total ^ _round(0, lane)) * first + _PRIMES[3]) & _MASK
    return total


def xxh64(data: bytes, seed: int) -> int:
    """XXH64, as its description has it."""
    first, second, third, fourth, fifth = _PRIMES
    total = _lanes(data, seed) if len(data) >= 32 else seed + fifth
    total = (total + len(data)) & _MASK
    at = len(data) // 32 * 32
    while at + 8 <= len(data):
        total ^= _round(0, int.from_bytes(data[at : at + 8], "little"))
        total, at = (_turned(total, 27) * first + fourth) & _MASK, at + 8
    if at + 4 <= len(data):
        total ^= int.from_bytes(data[at : at + 4], "little") * first & _MASK
        total, at = (_turned(total, 23) * second + third) & _MASK, at + 4
    for byte in data[at:]:
        total = _turned(total ^ byte * fifth & _MASK, 11) * first & _MASK
    total = (total ^ total >> 33) * second & _MASK
    total = (total ^ total >> 29) * third & _MASK
    return total ^ total >> 32


def _sum(data: bytes, name: bytes, disk: int, row: int, unit: int) -> bytes:
    place = disk.to_bytes(4, "little") + row.to_bytes(4, "little") + unit.to_bytes(8, "little")
    return xxh64(data, xxh64(name + place, 0)).to_bytes(8, "little")


def block_of(shape: Shape, stripes: int, name: bytes, unit: int, cells: bytes) -> bytes:
    """The checksum block of a unit."""
    size, sums = stripes * shape.cell_size, b""
    for place in range(shape.list_bytes):
        disk, row = divmod(place, shape.width)
        sums += _sum(cells[place * size : (place + 1) * size], name, disk, row, unit)
    return sums + _sum(sums, name, _GUARD, _GUARD, unit)


def film_of(shape: Shape, stripes: int, cells: bytes) -> bytes:
    """The film of a unit, stripe by stripe."""
    size, places = shape.cell_size, shape.disks * shape.width
    order = ((stripe, place) for stripe in range(stripes) for place in range(places))
    starts = ((place * stripes + stripe) * size for stripe, place in order)
    return b"".join(cells[start : start + size] for start in starts)


def run(check: Check) -> None:
    for width in WIDTHS[:5]:
        for disks in (2, width):
            _unit(check, Shape(width, disks, check.random.randrange(1, 40)))


def _unit(check: Check, shape: Shape) -> None:
    stripes, unit = check.random.randrange(1, 6), check.random.getrandbits(40)
    name = bytes(range(16))
    film = check.random.randbytes(stripes * shape.data_bytes)
    cells = bytearray(film + bytes(stripes * 2 * shape.column_bytes))
    cuzhaveli.encode_stripe(shape._replace(cell_size=stripes * shape.cell_size), cells)
    sealed = bytes(cells)
    block = cuzhaveli.seal_unit(shape, stripes, name, unit, cells)
    check.same(block, block_of(shape, stripes, name, unit, sealed), "seal_unit", shape, stripes)
    out = bytearray(len(film))
    cuzhaveli.film_bytes(shape, stripes, name, unit, block, cells, 0, out)
    check.same(out, film_of(shape, stripes, sealed), "film_bytes", shape, stripes)
    marks = bytearray(shape.list_bytes)
    marks[: shape.width] = b"\1" * shape.width
    cells[-1] ^= 1  # of Q, beside disk 0
    piece = cells[-stripes * shape.cell_size :]
    words = shape, stripes, name, unit, block
    cuzhaveli.block_fits(shape.width, shape.disks, name, unit, block)
    check.refused(24, cuzhaveli.block_fits, shape.width, shape.disks, name, unit + 1, block)
    check.refused(24, cuzhaveli.piece_fits, *words, shape.q, shape.width - 1, piece)
    cells[: stripes * shape.column_bytes] = bytes(stripes * shape.column_bytes)
    cuzhaveli.open_unit(shape, stripes, name, unit, block, marks, cells)
    check.same((cells, any(marks)), (sealed, False), "open_unit", shape, stripes)
