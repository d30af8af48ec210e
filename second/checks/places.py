"""Which place is reported when trees of one, three and five nuggets are damaged."""

import calls
import tree
from answers import HEAD, NODE, RECORD, Answer, Place

from checks.make import OLD, PRESENT, Spec, flipped, made, power, tree_of


def spec_of(n, **words):
    return Spec(n, 2, 64, 1, 3, 9, [[i, i % 4, 2 + i % 2] for i in range(n)], **words)


def damaged(spec, nodes):
    drive, volume = made(spec)
    for i in nodes:
        volume = flipped(volume, drive.layout.node_at(i) + 31, 7)
    return drive, volume


def said(drive, volume):
    """The answers of report, of mount, and of a read of one byte in each nugget."""
    reads = [calls.read(drive, volume, n * 128, b"?").answer for n in range(drive.n)]
    return (calls.report(drive, volume).answer,
            calls.mount(volume, PRESENT, OLD, drive.counter).answer, reads)


def node(i):
    return Answer(7, Place(NODE, i))


def record(n):
    return Answer(7, Place(RECORD, n))


GOOD, AT_HEAD, SEAL = Answer(0), Answer(7, Place(HEAD)), Answer(4)

# nuggets, damaged nodes, report's answer, mount's answer, each nugget's read
ROWS = [
    (1, [], GOOD, GOOD, [GOOD]),
    (1, [1], AT_HEAD, SEAL, [AT_HEAD]),
    (3, [1], AT_HEAD, SEAL, [AT_HEAD] * 3),
    (3, [2], node(2), node(2), [node(2), node(2), node(1)]),
    (3, [3], node(3), node(3), [node(1), node(1), node(3)]),
    (3, [4], record(0), record(0), [record(0), node(2), GOOD]),
    (3, [6], record(2), record(2), [GOOD, GOOD, record(2)]),
    (3, [7], node(7), node(7), [GOOD, GOOD, node(3)]),
    (3, [2, 3], node(3), node(3), [node(2), node(2), node(3)]),
    (3, [2, 7], node(7), node(7), [node(2), node(2), node(3)]),
    (5, [7], node(7), node(7), [GOOD] * 4 + [node(3)]),
    (5, [13], node(13), node(13), [GOOD] * 4 + [node(6)]),
    (5, [7, 13], node(13), node(13), [GOOD] * 4 + [node(6)]),
    (5, [14], node(14), node(14), [GOOD] * 5),
    (5, [13, 14, 15], node(15), node(15), [GOOD] * 4 + [node(6)]),
    (5, [6, 5], node(6), node(6), [node(2), node(2), node(5), node(5), node(6)]),
    (5, [5, 4, 2], node(5), node(5), [node(4)] * 2 + [node(5)] * 2 + [node(1)]),
    (5, [15, 12], record(4), record(4), [GOOD] * 4 + [record(4)]),
    (5, [12, 9], record(1), record(1), [node(4), record(1), GOOD, GOOD, record(4)]),
]


def unmade_node1(tally, version):
    """The head is right and node 1 is the drive's, but it isn't made of nodes 2 and 3."""
    for n in (3, 5):
        got = said(*made(spec_of(n, node1=b"\x11" * 32, version=version)))
        tally.same(f"{n} nuggets, node 1 not made", got, (node(1), node(1), [node(1)] * n))
    got = said(*made(spec_of(1, node1=b"\x11" * 32, version=version)))
    tally.same("one nugget, node 1 is its leaf", got, (record(0), record(0), [record(0)]))


def trees(tally, version):
    """The tree made afresh, and each node alone, against the checks' own."""
    for n in (1, 2, 3, 4, 5, 8, 9):
        spec = spec_of(n, version=version)
        drive, volume = made(spec)
        lay = drive.layout
        want = tree_of(spec, volume[lay.records:lay.tags], volume[lay.tags:lay.tree])
        tally.same(f"tree of {n}", tree.build(volume, lay), b"".join(want))
        tally.same(f"leaves of {n}", [tree.leaf_of(volume, lay, i) for i in range(n)],
                   want[power(n) - 1:power(n) - 1 + n])
        work = bytearray(volume)
        work[lay.tag_at(n - 1, 0)] ^= 1
        tree.renew(work, lay, n - 1)
        tally.same(f"path of {n} renewed", work[lay.tree:lay.flakes], tree.build(work, lay))
        tally.same(f"whole of {n} renewed", tree.whole_test(bytes(work), lay, (3, True, 9)), None)


def run(tally):
    for version in (1, 2):
        for n, nodes, *want in ROWS:
            tally.same(f"{n} nuggets, nodes {nodes} damaged", said(*damaged(spec_of(n, version=version), nodes)),
                       tuple(want))
        unmade_node1(tally, version)
        trees(tally, version)
