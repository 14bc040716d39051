"""Where the bytes of a film are on its disks, one image a disk."""

from __future__ import annotations

from typing import NamedTuple

from . import declarations
from .lending import call, size, whole
from .shape import Shape

__all__ = [
    "FilmPlace",
    "Image",
    "Layout",
    "Place",
    "UnitPlace",
    "block_place",
    "cell_place",
    "film_place",
    "image_bytes",
    "unit_place",
]


class Layout(NamedTuple):
    """A film of `length` bytes on the disks of a shape, in units and groups of so many stripes.

    A layout is not tested when it is made: every call tests it.
    """

    shape: Shape
    unit: int
    group: int
    length: int


class Image(NamedTuple):
    """The stripes and units of the film, where the second label begins, the bytes of an image."""

    stripes: int
    units: int
    end: int
    bytes: int


class Place(NamedTuple):
    """So many bytes of an image, from byte `at` on."""

    at: int
    bytes: int


class UnitPlace(NamedTuple):
    """The first stripe of a unit, how many it has, and the place of its piece of one row."""

    first: int
    stripes: int
    at: int
    bytes: int


class FilmPlace(NamedTuple):
    """The cell of a byte of film, its byte there, and its place in the image of that disk."""

    stripe: int
    disk: int
    row: int
    byte: int
    at: int


def image_bytes(layout: Layout) -> Image:
    """The stripes, the units and the bytes of an image. Refuses 1, 13, 2, 11, 25.

    >>> image_bytes(Layout(Shape(3, 2, 10), 2, 4, 361))
    Image(stripes=7, units=4, end=12288, bytes=16384)
    """
    image: declarations.Image = call("image_bytes", record(layout))
    return Image(image.stripes, image.units, image.end, image.bytes)


def cell_place(layout: Layout, row: int, stripe: int) -> Place:
    """The cell of a row of a stripe, in the image of every disk. Refuses 1, 13, 2, 11, 25, 26.

    >>> cell_place(Layout(Shape(3, 2, 10), 2, 4, 361), 2, 3)
    Place(at=4206, bytes=10)
    """
    return _place(call("cell_place", record(layout), size(row), whole("stripe", stripe, 64)))


def block_place(layout: Layout, unit: int) -> Place:
    """The checksum block of a unit, in every image. Refuses 1, 13, 2, 11, 25, 26.

    >>> block_place(Layout(Shape(3, 2, 10), 2, 4, 361), 1)
    Place(at=4320, bytes=104)
    """
    return _place(call("block_place", record(layout), whole("unit", unit, 64)))


def unit_place(layout: Layout, row: int, unit: int) -> UnitPlace:
    """The stripes of a unit, and its piece of a row. Refuses 1, 13, 2, 11, 25, 26.

    >>> unit_place(Layout(Shape(3, 2, 10), 2, 4, 361), 1, 3)
    UnitPlace(first=6, stripes=1, at=8242, bytes=10)
    """
    place: declarations.UnitPlace = call(
        "unit_place", record(layout), size(row), whole("unit", unit, 64)
    )
    return UnitPlace(place.first, place.stripes, place.at, place.bytes)


def film_place(layout: Layout, byte: int) -> FilmPlace:
    """Where a byte of the film is. Refuses 1, 13, 2, 11, 25, 26.

    >>> film_place(Layout(Shape(3, 2, 10), 2, 4, 361), 360)
    FilmPlace(stripe=6, disk=0, row=0, byte=0, at=8212)
    """
    place: declarations.FilmPlace = call("film_place", record(layout), whole("byte", byte, 64))
    return FilmPlace(place.stripe, place.disk, place.row, place.byte, place.at)


def record(layout: Layout) -> declarations.Layout:
    """The layout as the library takes it."""
    shape, unit, group, length = layout
    numbers = (whole(*one, 64) for one in (("unit", unit), ("group", group), ("length", length)))
    return declarations.Layout(*(size(number) for number in shape), *numbers)


def _place(place: declarations.Place) -> Place:
    return Place(place.at, place.bytes)
