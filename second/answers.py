"""The answer of a call, and the place that answer 7 carries."""

from typing import NamedTuple

from primitives import le

NOWHERE, HEAD, RECORD, NODE, FLAKE = range(5)


class Place(NamedTuple):
    kind: int
    first: int = 0
    second: int = 0

    def words(self):
        names = {HEAD: "head", RECORD: f"record {self.first}", NODE: f"node {self.first}",
                 FLAKE: f"flake {self.first} {self.second}"}
        return names.get(self.kind, "")


class Answer(NamedTuple):
    """Number 0 is acceptance. `left` is what answer 11 carries, `nugget` what 16 does."""
    number: int
    place: Place = Place(NOWHERE)
    left: int = 0
    nugget: int = 0

    def image(self):
        """The 16 bytes of the C interface."""
        first = {11: self.left, 16: self.nugget}.get(self.number, self.place.first)
        return (le(self.number, 4) + le(self.place.kind, 4) + le(first, 4)
                + le(self.place.second, 4))


ACCEPTED = Answer(0)


def altered(place):
    """Answer 7 at a place; None if there is no such place."""
    return Answer(7, place) if place else None
