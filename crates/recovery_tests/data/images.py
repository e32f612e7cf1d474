#!/usr/bin/env python3
"""Images of disks, made byte by byte, and what recovery of each gives, computed by a plain model (disk_model.py): a second opinion on recovery.

    python3 images.py            writes the files beside this script, and stdout above them
    python3 images.py --check    compares seals and results with ones that were found by hand, and the files with what would be written

images.txt     the images one behind another, each a disk in lines of words that are separated by one space
                 image NAME PAGES BLOCKS LOGS
                 log LOG HEAD COUNT        for each log: the number of its first block, and how many blocks its run has
                 area AREA LENGTH          an area of so many bytes; the next lines belong to it, and what none of them names is zeros
                 at OFFSET ZEROS HEX ...   from the offset on so many zero bytes, then these bytes, in turns
                 end
../stdout      a line for each case, in the order of the images: the whole image (as log 0, cut 0), then for each log in turn and each CUT from
               0 up to, not including, its COUNT the image in which of that log only CUT blocks are left. All other places of that log's area
               are zeros: those at 2048 * (q mod BLOCKS) for q from HEAD + CUT up to HEAD + BLOCKS - 1, as far as the area goes. A line is
                 NAME LOG CUT damaged AREA PLACE
               or
                 NAME LOG CUT winners W undone U base B
               and in this one behind a space, for each page that is not free, by number
                 page NUMBER GSN LAST_LOG LEVEL LOW HIGH PAIRS
               and each pair's KEY WORD. All numbers are decimal. A place is a page in area 1, and (number of the block) mod BLOCKS in area 1 + LOG.
causes.txt     the cases in which several places, or one place for several reasons, break a rule: all of them, the expected one first
records.txt    the images for people: why each is there, pages, and records with what became of them
"""
import pathlib
import sys

sys.dont_write_bytecode = True
from disk_model import (  # noqa: E402
    ABORT, BLOCKS, CHANGE, COMMIT, DEAD, DROP, ENDS, FREE, JOIN, KINDS, LIFT, NO_PAGE, PAGES, PURGE, PUT_BACK, SPLIT, TOP, WRITES,
    Page, Record, base_of, block, find, inner, leaf, master_slot, page_slot, read_master, read_run, record_bytes, recover, redo,
)  # fmt: skip

HERE = pathlib.Path(__file__).resolve().parent
IMAGES, EXPECTED = "images.txt", "../stdout"


# ---- Making an image


class Maker:
    """An image that is being made. `pages` are as an engine would have them in memory; records are drawn from them and change them."""

    def __init__(self, name, about, heads, generation=3, sequence=12):
        """A disk without pages, with two masters."""
        self.name, self.about, self.heads, self.generation = name, about, heads, generation
        self.pages, self.next = {}, dict(enumerate(heads, 1))
        self.areas = {0: bytearray(2048), 1: bytearray(2048 * PAGES)} | {1 + log: bytearray() for log in self.next}
        self.master(sequence, generation, 19)
        self.master(sequence - 1, generation - 1, 18)

    def master(self, sequence, generation, floor):
        """Writes a master in its slot."""
        self.write(0, 1024 * (sequence % 2), master_slot(sequence, generation, floor, self.heads))

    def write(self, area, at, data):
        """Writes bytes, and lets the area grow to hold them."""
        self.areas[area].extend(bytes(max(0, at + len(data) - len(self.areas[area]))))
        self.areas[area][at : at + len(data)] = data

    def spoil(self, area, at):
        """Changes a byte, so that the seal over it does not fit."""
        self.areas[area][at] ^= 1

    def save(self, p, slot, generation=None, page=None):
        """Saves a page, as it is in memory or as it is said."""
        self.write(1, 2048 * p + 1024 * slot, page_slot(p, self.generation if generation is None else generation, page or self.pages[p]))

    def base(self, nodes):
        """Saves nodes in slot 0, node p with number p + 1 and last log 1; other pages are free as on a new disk."""
        for p in range(PAGES):
            self.pages[p] = Page(p + 1, 1, nodes[p]) if p in nodes else NO_PAGE
            self.save(p, 0, self.generation if p in nodes else 0)

    def refs(self, *pages):
        """Pages with their numbers."""
        return tuple((p, self.pages.get(p, NO_PAGE).gsn) for p in pages)

    def change(self, p, key, after):
        """A write of a key in leaf p."""
        word = find(self.pages.get(p, NO_PAGE).node, key)
        return CHANGE, {"refs": self.refs(p), "key": key, "before": DEAD if word is None else word, "after": after}

    def put_back(self, p, key, after):
        """A write that puts a key back."""
        return PUT_BACK, self.change(p, key, after)[1]

    def split(self, left, right, parent, sep):
        """A split of left at a separator."""
        node = self.pages[left].node
        pairs = tuple(x for x in node.pairs if x[0] >= sep)
        return SPLIT, {"refs": self.refs(left, right, parent), "sep": sep, "high": node.high, "level": node.level, "pairs": pairs}

    def lift(self, new):
        """A lift of the root to a new page."""
        root = self.pages[0].node
        return LIFT, {"refs": self.refs(0, new), "high": TOP, "level": root.level, "pairs": root.pairs}

    def join(self, left, right, parent):
        """A join of left and right."""
        node = self.pages[right].node
        return JOIN, {"refs": self.refs(left, right, parent), "sep": node.low, "high": node.high, "pairs": node.pairs}

    def drop(self, child):
        """A drop of the root's one child."""
        node = self.pages[child].node
        return DROP, {"refs": self.refs(0, child), "level": node.level, "pairs": node.pairs}

    def purge(self, p, *keys):
        """A purge of keys in leaf p."""
        return PURGE, {"refs": self.refs(p), "keys": keys}

    def commit(self, need):
        """An end by commit."""
        return COMMIT, {"need": need}

    def abort(self, need):
        """An end by abort."""
        return ABORT, {"need": need}

    def block(self, log, *texts, **other):
        """Writes the log's next block. A text is the record's number, its transaction, its kind, and the arguments of the method of that name;
        `other` are fields of the last record that differ from what the pages say."""
        records = []
        for text in texts:
            n, txn, name, *arguments = text.split()
            kind, fields = getattr(self, name)(*(DEAD if a == "dead" else int(a) for a in arguments))
            records.append(Record(kind, log, int(txn), int(n), **(fields | (other if text is texts[-1] else {}))))
            self.pages = redo(records[-1], self.pages)
        self.raw(log, len(records), b"".join(map(record_bytes, records)))

    def raw(self, log, count, payload, generation=None, **other):
        """Writes the log's next block with any payload."""
        q = self.next[log]
        self.next[log] = q + 1
        data = block(self.generation if generation is None else generation, log, q, count, payload, **other)
        self.write(1 + log, 2048 * (q % BLOCKS), data)

    def blocks(self, log):
        """How many blocks the log's run has."""
        return len(read_run(self.areas[1 + log], log, self.generation, self.heads[log - 1]))

    def cut(self, log, count):
        """The areas where of a log's run only so many blocks are left."""
        area = bytearray(self.areas[1 + log])
        for q in range(self.heads[log - 1] + count, self.heads[log - 1] + BLOCKS):
            at = 2048 * (q % BLOCKS)
            area[at : at + 2048] = bytes(len(area[at : at + 2048]))
        return self.areas | {1 + log: area}

    def cases(self):
        """(log, cut, areas) of each case."""
        yield 0, 0, self.areas
        for log in self.next:
            for count in range(self.blocks(log)):
                yield log, count, self.cut(log, count)


MAKERS = []


def image(*heads, **options):
    """Marks a function that makes the image of its name, for which its docstring says why it is there. Heads are those of the logs."""

    def mark(make):
        MAKERS.append((make.__name__, make.__doc__, heads, options, make))
        return make

    return mark


def made():
    """All images."""
    for name, about, heads, options, make in MAKERS:
        maker = Maker(name, " ".join(about.split()), heads, **options)
        make(maker)
        yield maker


# ---- Images


TWO_LEAVES = {0: inner(1, 0, TOP, (0, 1), (100, 2)), 1: leaf(0, 100, (10, 1), (20, 2)), 2: leaf(100, TOP, (100, 7))}


@image(0)
def changes(i):
    """One leaf and one log: keys that come, change and go; a loser that wrote two keys twice."""
    i.base({0: leaf(0, TOP, (10, 100), (20, 200), (30, 300))})
    i.block(1, "20 1 change 0 10 101", "21 1 change 0 15 150")
    i.block(1, "22 1 commit 0", "23 2 change 0 20 dead")
    i.block(1, "24 2 change 0 20 205", "25 2 change 0 15 151")
    i.block(1, "26 3 change 0 30 dead", "27 3 commit 0")


@image(0, 5)
def leaf_split(i):
    """A loser over a split: its keys have moved to the right leaf, where it writes once more."""
    i.base(TWO_LEAVES | {1: leaf(0, 100, (10, 1), (20, 2), (50, 5), (60, 6))})
    i.block(1, "20 1 change 1 50 55")
    i.block(2, "21 1 split 1 3 0 50")
    i.block(2, "22 1 change 3 60 66", "23 1 commit 20")
    i.block(1, "24 1 change 3 55 3")
    i.block(2, "25 2 change 2 100 71")


@image(7, 0)
def inner_split(i):
    """A tree of three levels: an inner node is split, then a leaf under its new neighbour, and both sides are written."""
    leaves = {2: leaf(0, 10, (1, 1)), 3: leaf(10, 20, (11, 2)), 4: leaf(20, 30, (21, 3), (22, 4)), 5: leaf(30, TOP, (31, 5), (36, 6))}
    i.base({0: inner(2, 0, TOP, (0, 1)), 1: inner(1, 0, TOP, (0, 2), (10, 3), (20, 4), (30, 5))} | leaves)
    i.block(1, "20 1 change 4 21 33")
    i.block(2, "21 1 split 1 6 0 20")
    i.block(2, "22 1 split 5 7 6 35", "23 1 change 7 40 8")
    i.block(1, "24 1 change 2 1 dead", "25 1 change 7 36 66")
    i.block(2, "26 1 commit 20")
    i.block(1, "27 1 commit 23")


@image(0, 0)
def lifts(i):
    """Two lifts and two splits make three levels of one leaf; a loser wrote in the root when that was a leaf."""
    i.base({0: leaf(0, TOP, (1, 1), (2, 2), (3, 3), (4, 4))})
    i.block(2, "20 1 change 0 3 33")
    i.block(1, "21 1 lift 1")
    i.block(1, "22 1 split 1 2 0 3")
    i.block(1, "23 1 lift 3")
    i.block(1, "24 1 split 3 4 0 3", "25 1 change 1 1 11")
    i.block(2, "26 1 change 2 5 5")
    i.block(1, "27 1 commit 20")


@image(0, 0)
def joins(i):
    """A join under a loser, whose key moves to the left leaf; the free page becomes the right one of a split."""
    leaves = {1: leaf(0, 50, (10, 1)), 2: leaf(50, 100, (60, 6), (70, 7)), 3: leaf(100, TOP, (110, 1), (120, 2))}
    i.base({0: inner(1, 0, TOP, (0, 1), (50, 2), (100, 3))} | leaves)
    i.block(1, "20 1 change 2 60 66")
    i.block(2, "21 1 change 1 10 11", "22 1 join 1 2 0")
    i.block(1, "23 1 change 1 70 77")
    i.block(2, "24 1 split 3 2 0 120", "25 1 change 2 130 3")
    i.block(2, "26 1 commit 22")


@image(1, 2)
def drops(i):
    """Two drops make one leaf of three levels, a lift takes a free page again; a loser's key goes with the leaf."""
    i.base({0: inner(2, 0, TOP, (0, 1)), 1: inner(1, 0, TOP, (0, 2)), 2: leaf(0, TOP, (5, 1), (6, 2))})
    i.block(1, "20 1 change 2 5 11")
    i.block(2, "21 1 drop 1")
    i.block(2, "22 1 drop 2")
    i.block(2, "23 1 change 0 6 22", "24 1 lift 1")
    i.block(1, "25 1 change 1 7 3")
    i.block(2, "26 1 commit 20")


@image(0, 0)
def purges(i):
    """Purges of two keys, one and none; a loser in a leaf that is purged of other keys, and that brings a purged key again."""
    i.base(TWO_LEAVES | {1: leaf(0, 100, (10, 1), (20, DEAD), (30, 3), (40, DEAD)), 2: leaf(100, TOP, (100, DEAD), (110, 1))})
    i.block(1, "20 1 change 1 10 dead")
    i.block(2, "21 1 purge 1 20 40")
    i.block(2, "22 1 change 2 110 111", "23 1 purge 2 100")
    i.block(1, "24 1 change 1 30 33", "25 1 change 1 20 2")
    i.block(2, "26 1 commit 0", "27 2 purge 2")


@image(0, 0)
def put_backs(i):
    """An abort after all was put back, and a loser that was putting back."""
    i.base({0: leaf(0, TOP, (10, 1), (20, 2))})
    i.block(1, "20 1 change 0 10 11", "21 1 change 0 30 3")
    i.block(1, "22 1 put_back 0 30 dead", "23 1 put_back 0 10 1")
    i.block(1, "24 1 abort 0")
    i.block(2, "25 1 change 0 20 22", "26 1 change 0 20 23")
    i.block(2, "27 1 put_back 0 20 22")
    i.block(1, "28 2 change 0 10 12", "29 2 commit 27")


@image(0, 0)
def needs(i):
    """Ends with needs below, at and above the reach, which is 28 of the whole image: commits that win or not, and an abort that does not end."""
    leaves = {1: leaf(0, 100, (1, 1)), 2: leaf(100, 200, (101, 1)), 3: leaf(200, TOP, (201, 1))}
    i.base({0: inner(1, 0, TOP, (0, 1), (100, 2), (200, 3))} | leaves)
    i.block(1, "20 1 change 1 1 2", "21 1 commit 19")
    i.block(2, "22 1 change 2 101 2", "23 1 commit 21")
    i.block(1, "24 2 change 1 1 3", "25 2 commit 28")
    i.block(2, "26 2 change 2 101 3")
    i.block(2, "27 3 change 3 201 2", "28 3 abort 29")
    i.block(1, "29 3 change 1 2 9", "30 3 commit 29")
    i.block(1, "31 4 commit 0")


@image(0, 0)
def saved(i):
    """Pages saved at a record's number and beyond, so that redo changes only some of its pages. The first log cut short then leaves pages that
    no crash leaves: records of the second do not count, and some trees are broken."""
    i.base(TWO_LEAVES | {1: leaf(0, 100, (10, 1), (50, 5), (60, 6)), 2: leaf(100, TOP)})
    i.block(1, "20 1 change 1 60 61")
    i.block(1, "21 1 split 1 3 0 50")
    i.save(3, 1)
    i.block(1, "22 1 change 3 50 55")
    i.save(0, 1)
    i.block(2, "23 1 change 1 10 11")
    i.block(2, "24 1 join 1 3 0")
    i.block(2, "25 1 change 1 70 7")
    i.save(1, 1)
    i.block(1, "26 1 commit 0")


@image(0)
def skipped(i):
    """Page 1 was saved with a number that no record names: records of it do not count, also for their other pages, and are not undone."""
    i.base(TWO_LEAVES)
    i.block(1, "20 1 change 1 10 11", "21 1 change 2 100 8")
    i.block(1, "22 2 change 1 20 22", "23 2 commit 0")
    i.block(1, "24 1 split 1 3 0 20")
    i.block(1, "25 1 change 3 30 3", "26 1 change 2 110 9")
    i.save(1, 1, page=Page(5, 2, leaf(0, 100, (10, 9), (20, 8))))


@image(0, 0)
def twins(i):
    """The same numbers in both logs: by log where they are equal, on pages of their own and on one page that the second log's record takes
    from the first's; the key that two losers wrote gets the first one's word before."""
    i.base(TWO_LEAVES)
    i.block(1, "20 1 change 1 10 11")
    i.block(2, "20 1 change 2 100 8")
    i.block(1, "21 1 split 1 3 0 20")
    i.block(2, "21 1 commit 20")
    i.block(1, "22 1 change 3 20 21")
    i.block(2, "22 2 change 3 20 22")


@image(0, 5, 62, 10)
def four_logs(i):
    """Four logs whose transactions wait for each other's records: a cut of one makes losers in others."""
    ends = [0, 100, 200, 300, TOP]
    leaves = {p: leaf(low, high, (low + 10, p), (low + 60, p)) for p, low, high in zip(range(1, 5), ends, ends[1:])}
    i.base({0: inner(1, 0, TOP, *zip(ends[:4], range(1, 5)))} | leaves)
    i.block(1, "20 1 change 1 10 11")
    i.block(2, "21 1 change 2 110 12")
    i.block(3, "22 1 change 3 210 13", "23 1 change 1 20 14")
    i.block(4, "24 1 split 4 5 0 350")
    i.block(2, "25 1 commit 0")
    i.block(1, "26 1 commit 0")
    i.block(3, "27 1 commit 20")
    i.block(4, "28 1 change 5 360 15", "29 1 commit 0")
    i.block(1, "30 2 change 2 110 16")
    i.block(2, "31 2 change 5 370 17", "32 2 commit 29")
    i.block(3, "33 2 change 3 260 dead")
    i.block(4, "34 2 abort 0")


@image(62, generation=5, sequence=7)
def ring(i):
    """A run that goes round the ring's end. Behind it a block of an older generation, then one of this generation that belongs to no run.
    Page slots of every sort: later and older generations, spoilt seals, sealed ones that are no pages."""
    ends = [0, 10, 20, 30, 40, 50, TOP]
    leaves = {p: leaf(low, high, (low + 1, p)) for p, low, high in zip(range(1, 7), ends, ends[1:])}
    i.base({0: inner(1, 0, TOP, *zip(ends[:6], range(1, 7)))} | leaves)
    i.save(0, 1, 2, Page(18, 1, leaf(0, TOP)))
    i.save(1, 1, 4, Page(19, 1, leaf(0, 10, (2, 2))))
    i.pages[2] = Page(9, 1, leaf(10, 20, (12, 2)))
    i.save(2, 1)
    i.save(3, 1, 5, Page(9, 1, leaf(20, 30, (22, 2))))
    i.spoil(1, 2048 * 3 + 1024 + 500)
    i.save(4, 1, 6, Page(20, 1, leaf(30, 40, (32, 2))))
    i.save(5, 1, 5, Page(9, 1, leaf(40, 50, (43, 2), (42, 2))))
    i.write(1, 2048 * 6 + 1024, page_slot(7, 5, Page(9, 1, leaf(50, TOP, (52, 2)))))
    no_pages = [leaf(0, TOP, (1, DEAD + 1)), inner(1, 0, TOP, (0, 16)), inner(1, 0, TOP, (0, 0)), inner(1, 0, TOP, (1, 1)), inner(1, 0, TOP)]
    for p, node in enumerate([*no_pages, FREE._replace(low=1, high=1)], 7):
        i.save(p, 1, 5, Page(9, 1, node))
    i.block(1, "20 1 change 1 1 8", "21 1 change 2 12 8", "22 1 commit 0")
    i.block(1, "23 2 change 3 21 8", "24 2 change 4 31 8")
    i.block(1, "25 2 change 5 41 8", "26 2 change 6 51 8")
    i.block(1, "27 3 commit 27")
    i.raw(1, 1, record_bytes(Record(COMMIT, 1, 2, 28)), generation=4)
    i.raw(1, 1, record_bytes(Record(COMMIT, 1, 2, 29)))


@image(0)
def later_versions(i):
    """Slots of later generations: beside page 1 another version of the next one, beside page 2 the page itself once more, beside page 3
    another version of one far off. No record is about these; page 4, which has one too, changes."""
    ends = [0, 10, 20, 30, TOP]
    leaves = {p: leaf(low, high, (low + 1, p)) for p, low, high in zip(range(1, 5), ends, ends[1:])}
    i.base({0: inner(1, 0, TOP, *zip(ends[:4], range(1, 5)))} | leaves)
    i.save(1, 1, 4, Page(25, 1, leaf(0, 10, (2, 2))))
    i.save(2, 1, 4)
    i.save(3, 1, 9, Page(9, 1, leaf(20, 30, (22, 2))))
    i.save(4, 1, 4, Page(26, 1, leaf(30, TOP, (31, 3))))
    i.block(1, "20 1 change 4 31 8", "21 1 commit 0")


@image(0, 0, 0)
def strays(i):
    """Each run ends before a block that would end its loser: one of the ring's next round, one of another log, one whose seal is spoilt."""
    leaves = {1: leaf(0, 100, (1, 1)), 2: leaf(100, 200, (101, 1)), 3: leaf(200, TOP, (201, 1))}
    i.base({0: inner(1, 0, TOP, (0, 1), (100, 2), (200, 3))} | leaves)
    for log, key in ((1, 1), (2, 101), (3, 201)):
        i.block(log, f"{19 + log} 1 change {log} {key} 5")
    end = record_bytes(Record(COMMIT, 1, 1, 23))
    i.write(2, 2048, block(3, 1, 1 + BLOCKS, 1, end))
    i.write(3, 2048, block(3, 1, 1, 1, end))
    i.raw(3, 1, end)
    i.spoil(4, 2048 + 2031)


@image(0)
def full_block(i):
    """A block of 2,000 bytes of records; its purges do not count."""
    i.base(TWO_LEAVES)
    records = [Record(PURGE, 1, 1, 20 + n, ((1, 9),), keys=(0,) * count) for n, count in enumerate((60, 60, 60, 55))]
    i.raw(1, 4, b"".join(map(record_bytes, records)))
    i.block(1, "24 1 change 1 10 11", "25 1 commit 0")


@image(0)
def wide(i):
    """A full leaf, the root, is lifted and split; the greatest key and value; blocks of one large record. The slot of a later master is spoilt."""
    i.base({0: leaf(0, TOP, *((k, k) for k in range(2, 62)))})
    i.block(1, "20 1 change 0 61 9")
    i.block(1, "21 1 lift 15")
    i.block(1, "22 1 split 15 14 0 32", f"23 1 change 14 {TOP - 1} {DEAD - 1}")
    i.block(1, f"24 {2**64 - 1} commit 0")
    i.master(13, 4, 500)
    i.spoil(0, 1024 + 3)


@image(0)
def odd(i):
    """What no engine writes and the rules still say: a page that stands beyond a record, whose key is undone all the same; a number below its
    prev; words before that were not there; a purge of a value; a second commit; a record behind its transaction's end; a lift with other pairs
    than the root's; a put-back without a change. The slot of a later master has the wrong parity."""
    i.base({0: leaf(0, TOP, (10, 1), (20, 2), (30, 3))})
    i.pages[0] = i.pages[0]._replace(gsn=40)
    i.save(0, 0)
    i.block(1, "20 0 change 0 30 33", refs=((0, 3),), before=8)
    i.block(1, "21 1 change 0 10 11", before=7)
    i.block(1, "22 2 commit 0", "23 2 purge 0 20", "24 2 commit 0", "25 2 change 0 25 5")
    i.block(1, "26 3 lift 3", pairs=((5, 5), (10, 6), (30, 7)))
    i.block(1, "27 4 put_back 3 5 9")
    i.write(0, 1024, master_slot(14, 4, 500, i.heads))


@image(0, 0)
def under_floor(i):
    """Records below the floor, which is how far the logs reach: a commit that needs no more, and one that does. The second log has one block, of an
    older generation."""
    i.base(TWO_LEAVES)
    i.block(1, "10 1 change 1 10 11", "11 1 commit 19")
    i.block(1, "12 2 change 1 20 21", "13 2 commit 20")
    i.raw(2, 1, record_bytes(Record(COMMIT, 2, 1, 14)), generation=2)


# ---- Images with a damage


def damaged(name, about, *then, heads=(0,), nodes=None):
    """Adds an image of two leaves, or of other nodes, with a sound block in each log; behind it each (method, arguments, options) is done."""

    def make(i):
        i.base(nodes or TWO_LEAVES)
        for log in i.next:
            i.block(log, "20 1 change 1 10 11" if log == 1 else "20 1 commit 0")
        for method, arguments, options in then:
            getattr(Maker, method)(i, *arguments, **options)

    MAKERS.append((name, about, heads, {}, make))


def a_block(*arguments, **options):
    """A block of records."""
    return "block", arguments, options


def a_raw(*arguments, **options):
    """A block of bytes."""
    return "raw", arguments, options


def a_save(*arguments):
    """A page saved."""
    return "save", arguments, {}


def zeros(p):
    """Zeros in a page's slot 0."""
    return "write", (1, 2048 * p, bytes(1024)), {}


ONE_LEAF = {0: inner(1, 0, TOP, (0, 1)), 1: leaf(0, TOP, (10, 1))}
FULL = {0: inner(1, 0, TOP, (0, 1)), 1: leaf(0, TOP, *((k, 1) for k in range(10, 69)))}
HALVES = {1: leaf(0, 40, *((k, 1) for k in range(10, 40))), 2: leaf(40, 70, *((k, 1) for k in range(40, 70))), 3: leaf(70, TOP, (70, 1))}
THREE_LEVELS = {0: inner(2, 0, TOP, (0, 2), (100, 3)), 2: inner(1, 0, 100, (0, 1)), 3: inner(1, 100, TOP, (100, 4)), 4: leaf(100, TOP)}
SOUND = record_bytes(Record(COMMIT, 1, 1, 23))
MANY_KEYS = record_bytes(Record(PURGE, 1, 2, 21, ((1, 9),), keys=(0,) * 61))
MANY_PAIRS = record_bytes(Record(LIFT, 1, 2, 21, ((0, 9), (3, 0)), pairs=((0, 0),) * 61))
TWO = (0, 3)

# bases
damaged("no_base", "Slot 0 of page 2 is spoilt, slot 1 of a later generation.", ("spoil", (1, 2048 * 2 + 1008), {}), a_save(2, 1, 4))
damaged("no_free_base", "Slot 0 of the last page, which nothing names, is zeros, slot 1 has a fence but is free.", zeros(15),
        a_save(15, 1, 0, Page(0, 0, FREE._replace(high=1))))
# blocks
damaged("kind_ten", "A record of kind 10 stands behind a sound one.", a_raw(2, 2, SOUND + b"\x0a" + SOUND[1:]), heads=TWO)
damaged("few_counted", "A block says one record fewer than it holds.", a_raw(2, 1, SOUND + SOUND), heads=TWO)
damaged("many_counted", "A block says one record more than it holds.", a_raw(1, 2, SOUND))
damaged("no_zeros", "The last byte that may be a record's is no zero behind the records, in the ring's place 0.",
        a_raw(2, 1, SOUND, behind=bytes(1999 - len(SOUND)) + b"\x01"), heads=(0, 63))
damaged("long_payload", "A block says 2,001 bytes of records.", a_raw(1, 1, SOUND, size=2001))
damaged("cut_record", "The records end within one, whose last byte is zero.", a_raw(1, 1, SOUND, size=len(SOUND) - 1))
damaged("many_keys", "A purge of 61 keys, which would not count.", a_raw(1, 1, MANY_KEYS))
damaged("many_pairs", "A lift with 61 pairs, which would not count.", a_raw(1, 1, MANY_PAIRS))
# numbers
damaged("same_number", "The number of a log's last block comes again.", a_block(2, "20 2 commit 0"), heads=TWO)
damaged("falling", "Within a block a number is below the one before it.", a_block(1, "30 1 commit 0", "29 2 commit 0"))
# records that can't be done
damaged("page_16", "A record that does not count names page 16.", a_block(2, "21 2 change 16 10 1", refs=((16, 5),)), heads=TWO)
damaged("right_16", "A split whose right page is page 16.", a_block(1, "21 1 split 1 16 0 20"))
damaged("full_leaf", "A leaf gets a 60th key, then a 61st.", a_block(1, "21 1 change 1 9 1"), a_block(1, "22 1 change 1 8 1"), nodes=FULL)
damaged("outside", "A change of the key that is the leaf's high fence.", a_block(2, "21 2 change 1 100 1"), heads=TWO)
damaged("below", "A change of the key below the leaf's low fence.", a_block(1, "21 1 change 2 99 1"))
damaged("great_word", "A change to a word above a tombstone's.", a_block(1, f"21 1 change 1 20 {DEAD + 1}"))
damaged("great_before", "The word before is above a tombstone's, and the page stands beyond the record.",
        a_block(1, "21 1 change 1 20 5", before=DEAD + 1), a_save(1, 1, 3))
damaged("inner_change", "A change of a page that is no leaf.", a_block(1, "21 1 change 0 100 1"))
damaged("free_change", "A change of a free page.", a_block(1, "21 1 change 3 100 1"))
damaged("no_put_back", "A put-back of a key that is not there.", a_block(1, "21 1 put_back 1 30 dead"))
damaged("disordered", "A split with pairs out of order.", a_block(2, "21 2 split 1 3 0 20", pairs=((30, 1), (20, 2))), heads=TWO)
damaged("low_pair", "A split with a pair below the separator.", a_block(1, "21 1 split 1 3 0 20", pairs=((19, 1),)))
damaged("high_pair", "A split with a pair at the high fence.", a_block(1, "21 1 split 1 3 0 20", pairs=((100, 1),)))
damaged("low_separator", "A split at the left page's low fence.", a_block(1, "21 1 split 2 3 0 100"))
damaged("same_page", "A split whose right page is the parent.", a_block(1, "21 1 split 1 0 0 20"))
damaged("far_parent", "A split whose separator is outside the parent's fences.", a_block(1, "21 1 split 1 5 3 20"),
        nodes=THREE_LEVELS | {1: leaf(0, 100, (10, 1), (20, 2))})
damaged("level_eight", "A split of level 8.", a_block(1, "21 1 split 1 3 0 20", level=8))
damaged("full_parent", "A split under a parent of 60 pairs, which no tree of 16 pages has.", a_block(1, "21 1 split 1 2 0 70"),
        nodes={0: inner(1, 0, TOP, *((k, 1) for k in range(60))), 1: leaf(0, TOP, (10, 1), (70, 1))})
damaged("level_seven", "A lift of level 7.", a_block(2, "21 2 lift 3", level=7), heads=TWO)
damaged("lift_zero", "A lift to page 0.", a_block(1, "21 1 lift 0"))
damaged("lift_disorder", "A lift with a key twice.", a_block(1, "21 1 lift 3", pairs=((0, 1), (0, 2))))
damaged("free_lift", "A lift of page 0 that is free.", a_block(1, "21 1 lift 3"), nodes={1: leaf(0, TOP, (10, 1))})
damaged("low_lift", "A lift of a root whose low fence is not 0.", a_block(1, "21 1 lift 3"),
        nodes={0: inner(1, 5, TOP, (5, 1)), 1: leaf(5, TOP, (10, 1))})
damaged("no_separator", "A join whose parent has no pair of the separator.", a_block(2, "21 2 join 1 2 0", sep=99), heads=TWO)
damaged("join_overflow", "A join of 30 and 30 pairs, then of 60 and 1.", a_block(1, "21 1 join 1 2 0"), a_block(1, "22 1 join 1 3 0"),
        nodes={0: inner(1, 0, TOP, (0, 1), (40, 2), (70, 3))} | HALVES)
damaged("join_disorder", "A join with a pair that is not above the left page's.", a_block(1, "21 1 join 1 2 0", pairs=((20, 1), (100, 7))))
damaged("join_high", "A join with a high fence that is not above the last key.", a_block(1, "21 1 join 1 2 0", high=100))
damaged("drop_disorder", "A drop with pairs out of order.", a_block(1, "21 1 drop 1", pairs=((20, 1), (10, 1))), nodes=ONE_LEAF)
damaged("drop_level", "A drop of level 8.", a_block(1, "21 1 drop 1", level=8), nodes=ONE_LEAF)
damaged("free_drop", "A drop to page 0 that is free.", a_block(1, "21 1 drop 1", pairs=()), nodes={1: leaf(0, TOP, (10, 1))})
damaged("inner_purge", "A purge of a key of an inner page.", a_block(1, "21 1 purge 0 100"))
damaged("free_purge", "A purge of no keys of a free page.", a_block(1, "21 1 purge 3"))
damaged("no_key", "A purge of a key that is there, and of one that is not.", a_block(2, "21 2 purge 1 20 30"), heads=TWO)
# trees
damaged("no_root", "The root's high fence is not the greatest.", nodes={0: inner(1, 0, 200, (0, 1)), 1: leaf(0, 200, (10, 1))})
damaged("free_root", "Page 0 is free.", nodes={1: leaf(0, TOP, (10, 1))})
damaged("low_child", "A leaf whose low fence is not its pair's key.", nodes=TWO_LEAVES | {2: leaf(150, TOP, (150, 7))})
damaged("two_names", "A split whose right page is a child already, so that two pairs name page 2.", a_block(1, "21 1 split 1 2 0 20"))
damaged("no_parent", "A drop of one of two children: no page names page 2.", a_block(1, "21 1 drop 1"))
damaged("wrong_level", "A split that says level 1 of a leaf.", a_block(1, "21 1 split 1 3 0 50", level=1, pairs=((50, 2),)))
damaged("no_child", "A split makes page 4 of level 1, without pairs; page 5 is then named by none.", a_block(1, "21 1 split 2 4 0 20", pairs=()),
        nodes={0: inner(2, 0, TOP, (0, 2)), 2: inner(1, 0, TOP, (0, 1), (20, 5)), 1: leaf(0, 20, (10, 1)), 5: leaf(20, TOP)})
damaged("great_pair", "A split with a word above a tombstone's makes page 3 no leaf.", a_block(1, "21 1 split 1 3 0 20", pairs=((20, DEAD + 1),)))
# undo
damaged("no_entry", "The key of a loser was purged.", a_block(1, "21 1 change 1 20 dead"), a_block(2, "22 2 purge 1 20"),
        a_block(1, "23 1 change 1 15 1"), heads=TWO)
damaged("no_entries", "The keys of two losers were purged: the last one's block is expected.", a_block(2, "21 2 change 1 30 1"),
        a_block(1, "22 1 change 1 20 dead"), a_block(2, "23 3 purge 1 20 30"), heads=TWO)
damaged("beyond", "The page stands beyond a loser's change, and has no entry of its key.", a_block(1, "21 1 change 1 15 1"),
        a_save(1, 1, 3, Page(21, 1, TWO_LEAVES[1])))
damaged("greatest_key", "The same of the greatest key, which no leaf holds.", a_block(1, f"21 1 change 1 {TOP} 1"),
        a_save(1, 1, 3, Page(21, 1, TWO_LEAVES[1])))
# several at once, of which cuts take some away
damaged("base_first", "A page without a base and a block of no records.", a_raw(1, 9, b""), zeros(9))
damaged("in_turn", "In the first log a number twice, then a block of no records; in the second a block of no records.", a_block(1, "20 2 commit 0"),
        a_raw(1, 9, b""), a_raw(2, 9, b""), heads=TWO)
damaged("many", "A block of no records; a split at a fence, a broken tree and a purged key.", a_raw(2, 9, b""), a_block(1, "31 1 split 1 2 0 100"),
        a_block(1, "32 1 split 1 2 0 20"), a_block(1, "33 2 purge 1 10"), heads=TWO)
damaged("tree_first", "A broken tree and a purged key.", a_block(1, "21 1 split 1 2 0 20"), a_block(2, "22 2 purge 1 10"), heads=TWO)


# ---- The files


def ranges(data, least=3):
    """The ranges of bytes that are not zero, as (zeros before, bytes); fewer zeros than `least` stay within a range."""
    found, done, at = [], 0, 0
    while at < len(data):
        end = at
        while data[end : end + 1] > b"\0" or end > at and any(data[end : end + least]):
            end += 1
        if end > at:
            found.append((at - done, data[at:end]))
            done = end
        at = max(end, at + 1)
    return found


def image_lines(i):
    """The lines of an image's file."""
    yield f"image {i.name} {PAGES} {BLOCKS} {len(i.heads)}"
    for log, head in enumerate(i.heads, 1):
        yield f"log {log} {head} {i.blocks(log)}"
    for area, data in i.areas.items():
        yield f"area {area} {len(data)}"
        size = 2048 if area > 1 else 1024
        for at in range(0, len(data), size):
            if found := ranges(bytes(data[at : at + size])):
                yield f"at {at} " + " ".join(f"{zeros} {part.hex()}" for zeros, part in found)
    yield "end"


def page_words(p, page):
    """A page in words."""
    node = page.node
    return " ".join(map(str, ["page", p, page.gsn, page.last, node.level, node.low, node.high, len(node.pairs), *(n for x in node.pairs for n in x)]))


def result(outcome):
    """What stands in a line behind the case."""
    if outcome.damages:
        return f"damaged {outcome.damages[0].area} {outcome.damages[0].place}"
    said = [f"winners {outcome.winners} undone {outcome.undone} base {outcome.base}"]
    return " ".join(said + [page_words(p, page) for p, page in sorted(outcome.pages.items()) if page.node.live])


def record_line(r, fate):
    """A record for people, with what became of it."""
    said = [f"{r.number} {KINDS[r.kind]} of {r.log}.{r.txn}"]
    said += ["pages " + ", ".join(f"{p} at {prev}" for p, prev in r.refs)] if r.refs else []
    said += [f"key {r.key} from {r.before} to {r.after}"] if r.kind in WRITES else []
    said += [f"separator {r.sep}; high {r.high}"] if r.kind in (SPLIT, JOIN) else []
    said += [f"level {r.level}"] if r.kind in (SPLIT, LIFT, DROP) else []
    said += ["pairs " + " ".join(f"{k}:{w}" for k, w in r.pairs)] if r.pairs else []
    said += ["keys " + " ".join(map(str, r.keys))] if r.keys else []
    if r.kind in ENDS:
        return "; ".join(said + [f"need {r.need}"])
    changed = "changes " + (", ".join(map(str, fate)) if fate else "nothing")
    return "; ".join(said + ["does not count" if fate is None else changed])


def listing(i):
    """The lines of an image for people."""
    generation, floor, heads = read_master(i.areas[0])
    outcome = recover(i.areas)
    yield f"## {i.name}"
    yield i.about
    yield f"generation {generation}, floor {floor}, heads {heads}"
    for p in range(PAGES):
        base = base_of(i.areas[1], p, generation)
        if base is None or base.node.live:
            yield page_words(p, base) if base else f"page {p} has no base"
    for log, head in enumerate(heads, 1):
        for place, records in read_run(i.areas[1 + log], log, generation, head):
            yield f"log {log}, block at {place}" + (" holds no records" if records is None else "")
            yield from ("  " + record_line(r, outcome.fates[log, r.number]) for r in records or ())
    yield "gives " + result(outcome)
    yield ""


def texts():
    """What each file holds, by its path from this script's folder."""
    images, expected, causes, records = [], [], [], []
    for i in made():
        images += image_lines(i)
        records += listing(i)
        for log, cut, areas in i.cases():
            outcome = recover(areas)
            expected.append(f"{i.name} {log} {cut} {result(outcome)}")
            if len(outcome.damages) > 1:
                causes.append(f"{i.name} {log} {cut}: " + "; ".join(f"{d.area} {d.place} {d.why}" for d in outcome.damages))
    files = {IMAGES: images, EXPECTED: expected, "causes.txt": causes, "records.txt": records}
    return {name: "".join(line + "\n" for line in lines) for name, lines in files.items()}


# ---- The check


# seals of the examples in docs/FORMAT.md
SEALS = [
    (master_slot(0, 0, 0, [0]), "4f57d2f4ecfb61fe5b69e17d29746886"),
    (page_slot(5, 3, Page(77, 2, leaf(0, TOP, (1, 10), (5, 7), (9, DEAD)))), "2b0f03ed277b1b906312a9f24c2cdc6e"),
    (page_slot(0, 3, Page(77, 2, inner(1, 0, TOP, (0, 4), (100, 9), (200, 2)))), "30bc5882a9cd632675a3ae0dce3143b9"),
    (page_slot(15, 0, NO_PAGE), "c93117102a0d62b6dbb4fba1bafdd6e5"),
    (
        block(1, 1, 0, 2, record_bytes(Record(CHANGE, 1, 1, 1, ((0, 0),), 5, DEAD, 7)) + record_bytes(Record(COMMIT, 1, 1, 2))),
        "66e29cba941fa17913ade0b55812282d",
    ),
]

# results that were worked out by hand from records.txt
BY_HAND = f"""\
changes 0 0 winners 2 undone 1 base 27 page 0 26 1 0 0 {TOP} 4 10 101 15 150 20 200 30 {DEAD}
changes 1 0 winners 0 undone 0 base 19 page 0 1 1 0 0 {TOP} 3 10 100 20 200 30 300
changes 1 1 winners 0 undone 1 base 21 page 0 21 1 0 0 {TOP} 4 10 100 15 {DEAD} 20 200 30 300
leaf_split 0 0 winners 1 undone 2 base 25 page 0 21 2 1 0 {TOP} 3 0 1 50 3 100 2 page 1 21 2 0 0 50 2 10 1 20 2 \
page 2 25 2 0 100 {TOP} 1 100 7 page 3 24 1 0 50 100 3 50 5 55 {DEAD} 60 66
leaf_split 1 0 winners 0 undone 2 base 25 page 0 1 1 1 0 {TOP} 2 0 1 100 2 page 1 2 1 0 0 100 4 10 1 20 2 50 5 60 6 \
page 2 25 2 0 100 {TOP} 1 100 7
needs 0 0 winners 4 undone 3 base 31 page 0 1 1 1 0 {TOP} 3 0 1 100 2 200 3 page 1 29 1 0 0 100 2 1 3 2 {DEAD} \
page 2 26 2 0 100 200 1 101 2 page 3 27 2 0 200 {TOP} 1 201 1
twins 0 0 winners 1 undone 2 base 22 page 0 21 1 1 0 {TOP} 3 0 1 20 3 100 2 page 1 21 1 0 0 20 1 10 1 \
page 2 20 2 0 100 {TOP} 1 100 8 page 3 22 2 0 20 100 1 20 2
odd 0 0 winners 2 undone 4 base 40 page 0 26 1 1 0 {TOP} 1 0 3 page 3 27 1 0 0 {TOP} 3 5 5 10 7 30 8
under_floor 0 0 winners 1 undone 1 base 19 page 0 1 1 1 0 {TOP} 2 0 1 100 2 page 1 12 1 0 0 100 2 10 11 20 2 page 2 3 1 0 100 {TOP} 1 100 7
kind_ten 0 0 damaged 3 4
no_zeros 0 0 damaged 3 0
full_leaf 0 0 damaged 2 2
two_names 0 0 damaged 1 0
no_entry 0 0 damaged 2 1
no_entries 0 0 damaged 2 1
no_entries 1 1 winners 1 undone 3 base 23 page 0 1 1 1 0 {TOP} 2 0 1 100 2 page 1 21 2 0 0 100 3 10 1 20 2 30 {DEAD} \
page 2 3 1 0 100 {TOP} 1 100 7
beyond 0 0 damaged 2 1
greatest_key 0 0 damaged 2 1
base_first 0 0 damaged 1 9
in_turn 0 0 damaged 2 1
in_turn 1 1 damaged 3 4
in_turn 1 2 damaged 2 1
many 0 0 damaged 3 4
many 2 1 damaged 2 1
tree_first 0 0 damaged 1 0
"""


def read_images(text):
    """The areas of each image of the file, by its name."""
    images = {}
    for line in text.splitlines():
        name, *rest = line.split(" ")
        if name == "image":
            areas = images[rest[0]] = {}
        if name == "area":
            area = areas[int(rest[0])] = bytearray(int(rest[1]))
        if name == "at":
            at = int(rest[0])
            for zeros, part in zip(rest[1::2], map(bytes.fromhex, rest[2::2])):
                at += int(zeros) + len(part)
                area[at - len(part) : at] = part
    return images


def wrong(files):
    """What is wrong: a line for each seal and result that is not as found by hand, for images that their file does not spell, and for each file
    that is not as it would be written."""
    for data, seal in SEALS:
        if data[-16:].hex() != seal:
            yield f"seal {data[-16:].hex()}, not {seal}"
    for line in set(BY_HAND.splitlines()) - set(files[EXPECTED].splitlines()):
        yield f"not expected: {line}"
    spelled = read_images(files[IMAGES])
    for name in sorted(spelled.keys() ^ {i.name for i in made()}):
        yield f"not one image: {name}"
    for i in made():
        if spelled.get(i.name) != i.areas:
            yield f"not spelled: {i.name}"
    for name, text in files.items():
        if not (HERE / name).is_file() or (HERE / name).read_bytes() != text.encode():
            yield f"not as it would be written: {name}"


def main():
    """Writes the files, or checks."""
    files = texts()
    if sys.argv[1:] == ["--check"]:
        found = list(wrong(files))
        print("\n".join(found) or f"{len(files)} files are as they should be")
        sys.exit(1 if found else 0)
    if sys.argv[1:]:
        sys.exit("usage: images.py [--check]")
    for name, text in files.items():
        (HERE / name).write_bytes(text.encode())


if __name__ == "__main__":
    main()
