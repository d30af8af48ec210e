"""Leaves, inner nodes, the path test, the whole test, and the tree made afresh."""

from answers import NODE as NODE_PLACE
from answers import RECORD as RECORD_PLACE
from answers import Place
from layout import NODE, TAG, read_record
from primitives import blake2s, le

ZEROS = bytes(NODE)


def leaf(nugget, record_bytes, tags):
    return blake2s(b"", b"L" + le(nugget, 4) + record_bytes + tags)


def inner(left, right):
    return blake2s(b"", b"T" + left + right)


def node(volume, lay, i):
    at = lay.node_at(i)
    return bytes(volume[at:at + NODE])


def leaf_of(volume, lay, n):
    """The leaf that nugget n's record and tags make."""
    at, tags = lay.record_at(n), lay.tag_at(n, 0)
    return leaf(n, bytes(volume[at:at + lay.record]), bytes(volume[tags:tags + TAG * lay.p]))


def inner_of(volume, lay, i):
    """The node that nodes 2i and 2i + 1, as they stand, make."""
    return inner(node(volume, lay, 2 * i), node(volume, lay, 2 * i + 1))


def record_fails(volume, lay, head, n):
    record = read_record(volume, lay, n)
    return (not record.well_formed(lay.p, *head)
            or leaf_of(volume, lay, n) != node(volume, lay, lay.leaves + n))


def path_test(volume, lay, head, n):
    """The first bad place on nugget n's path, or None. `head` is epoch, changing and counter."""
    if record_fails(volume, lay, head, n):
        return Place(RECORD_PLACE, n)
    i = (lay.leaves + n) // 2
    while i >= 1:
        if node(volume, lay, i) != inner_of(volume, lay, i):
            return Place(NODE_PLACE, i)
        i //= 2
    return None


def whole_test(volume, lay, head):
    """The first bad place of the whole volume, or None.

    Records ascending; then the nodes that are no nugget's leaf, from 2L - 1 down.
    """
    for n in range(lay.n):
        if record_fails(volume, lay, head, n):
            return Place(RECORD_PLACE, n)
    for i in range(lay.nodes, lay.leaves + lay.n - 1, -1):
        if node(volume, lay, i) != ZEROS:
            return Place(NODE_PLACE, i)
    for i in range(lay.leaves - 1, 0, -1):
        if node(volume, lay, i) != inner_of(volume, lay, i):
            return Place(NODE_PLACE, i)
    return None


def build(volume, lay):
    """The tree's bytes made afresh from records and tags, nodes 1 to 2L - 1."""
    nodes = [ZEROS] * (lay.nodes + 1)
    for n in range(lay.n):
        nodes[lay.leaves + n] = leaf_of(volume, lay, n)
    for i in range(lay.leaves - 1, 0, -1):
        nodes[i] = inner(nodes[2 * i], nodes[2 * i + 1])
    return b"".join(nodes[1:])


def renew(work, lay, n):
    """Stores nugget n's leaf and the nodes above it in a bytearray."""
    i = lay.leaves + n
    made = leaf_of(work, lay, n)
    while i >= 1:
        at = lay.node_at(i)
        work[at:at + NODE] = made
        i //= 2
        if i:
            made = inner_of(work, lay, i)
