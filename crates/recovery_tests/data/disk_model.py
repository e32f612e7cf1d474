"""The bytes of a disk, and what recovery of one gives, by a plain model. It is written from docs/FORMAT.md and shares no code with the engine.

Every disk here has 16 pages and 64 blocks a log. Which of several damages is expected is the first in this order: pages without a base, by page;
the logs in turn, in each the first block that is no block of records or has a number that does not rise; records that can't be done, by
(number, log); pages that break the tree, by page; writes that can't be set back, the last in (number, log) first.
"""
import hashlib
from typing import NamedTuple

PAGES, BLOCKS = 16, 64
ROOM, LEVELS = 60, 7
DEAD, TOP = 2**63, 2**64 - 1
CHANGE, PUT_BACK, SPLIT, LIFT, JOIN, DROP, PURGE, COMMIT, ABORT = range(1, 10)
KINDS = "none change put-back split lift join drop purge commit abort".split()
WRITES, ENDS = (CHANGE, PUT_BACK), (COMMIT, ABORT)


class Node(NamedTuple):
    """A node or, where it is not live, a free page; pairs are (key, word)."""

    live: bool
    level: int
    low: int
    high: int
    pairs: tuple


class Page(NamedTuple):
    """A page's contents: the number and the log of the last record that changed it, and its node."""

    gsn: int
    last: int
    node: Node


class Record(NamedTuple):
    """A record of a log. Its refs are (page, prev): leaf; or left, right, parent; or page 0 and the other page of a lift or a drop."""

    kind: int
    log: int
    txn: int
    number: int
    refs: tuple = ()
    key: int = 0
    before: int = 0
    after: int = 0
    sep: int = 0
    high: int = 0
    level: int = 0
    pairs: tuple = ()
    keys: tuple = ()
    need: int = 0


class Damage(NamedTuple):
    """A place that breaks a rule, and why."""

    area: int
    place: int
    why: str


FREE = Node(False, 0, 0, 0, ())
NO_PAGE = Page(0, 0, FREE)


def leaf(low, high, *pairs):
    """A leaf."""
    return Node(True, 0, low, high, pairs)


def inner(level, low, high, *pairs):
    """An inner node."""
    return Node(True, level, low, high, pairs)


# ---- The bytes, written


def number(size, value):
    """The bytes of a number."""
    return value.to_bytes(size, "little")


def words(*values):
    """The bytes of words."""
    return b"".join(number(8, v) for v in values)


def sealed(tag, body):
    """The bytes, and the seal over them."""
    return body + hashlib.sha256(tag + body).digest()[:16]


def master_slot(sequence, generation, floor, heads):
    """A master slot."""
    return sealed(b"LEANMAST", words(1, sequence, generation, floor, PAGES, BLOCKS, len(heads), *heads).ljust(1008, b"\0"))


def page_slot(p, generation, page):
    """A page slot."""
    node = page.node
    packed = len(node.pairs) | node.level << 8 | page.last << 16 | (1 if node.live else 2) << 24
    head = words(p, page.gsn, generation, packed, node.low, node.high)
    return sealed(b"LEANPAGE", (head + b"".join(words(*x) for x in node.pairs)).ljust(1008, b"\0"))


def block(generation, log, q, count, payload, size=None, behind=b""):
    """A log block; `size` is said in place of the payload's length, and `behind` stands behind it where zeros should."""
    head = words(generation, log, q) + number(4, len(payload) if size is None else size) + number(4, count)
    return sealed(b"LEANLOGB", (head + payload + behind).ljust(2032, b"\0"))


def record_bytes(r):
    """The bytes of a record."""
    refs = [number(4, page) + words(prev) for page, prev in r.refs]
    pairs = bytes([len(r.pairs)]) + b"".join(words(*x) for x in r.pairs)
    body = {
        CHANGE: lambda: refs[0] + words(r.key, r.before, r.after),
        SPLIT: lambda: b"".join(refs) + words(r.sep, r.high) + bytes([r.level]) + pairs,
        LIFT: lambda: words(r.refs[0][1]) + refs[1] + bytes([r.level]) + pairs,
        JOIN: lambda: b"".join(refs) + words(r.sep, r.high) + pairs,
        PURGE: lambda: refs[0] + bytes([len(r.keys)]) + words(*r.keys),
        COMMIT: lambda: words(r.need),
    }
    body |= {PUT_BACK: body[CHANGE], DROP: body[LIFT], ABORT: body[COMMIT]}
    return bytes([r.kind]) + words(r.txn, r.number) + body[r.kind]()


# ---- The bytes, read


class Unreadable(Exception):
    """The bytes are no block of records."""


class Cursor:
    """Takes numbers from bytes."""

    def __init__(self, data):
        """At the first byte."""
        self.data, self.at = data, 0

    def take(self, size):
        """The next number of so many bytes."""
        if self.at + size > len(self.data):
            raise Unreadable
        self.at += size
        return int.from_bytes(self.data[self.at - size : self.at], "little")

    def word(self):
        """The next word."""
        return self.take(8)

    def ref(self):
        """A page and its prev."""
        return self.take(4), self.word()

    def items(self, item):
        """A count of at most 60, and so many items."""
        count = self.take(1)
        if count > ROOM:
            raise Unreadable
        return tuple(item() for _ in range(count))

    def pairs(self):
        """Pairs with their count."""
        return self.items(lambda: (self.word(), self.word()))


def is_sealed(tag, data, size):
    """The bytes are whole, and their seal fits."""
    return len(data) == size and sealed(tag, data[:-16]) == data


def word_at(data, i):
    """Word i of the bytes."""
    return int.from_bytes(data[8 * i : 8 * i + 8], "little")


def read_record(c, log):
    """The record that stands next in a block of the log."""
    kind, txn, n = c.take(1), c.word(), c.word()
    r = Record(kind, log, txn, n)
    if kind in WRITES:
        return r._replace(refs=(c.ref(),), key=c.word(), before=c.word(), after=c.word())
    if kind == SPLIT:
        return r._replace(refs=(c.ref(), c.ref(), c.ref()), sep=c.word(), high=c.word(), level=c.take(1), pairs=c.pairs())
    if kind in (LIFT, DROP):
        high = TOP if kind == LIFT else 0
        return r._replace(refs=((0, c.word()), c.ref()), high=high, level=c.take(1), pairs=c.pairs())
    if kind == JOIN:
        return r._replace(refs=(c.ref(), c.ref(), c.ref()), sep=c.word(), high=c.word(), pairs=c.pairs())
    if kind == PURGE:
        return r._replace(refs=(c.ref(),), keys=c.items(c.word))
    if kind in ENDS:
        return r._replace(need=c.word())
    raise Unreadable


def read_block(data, log):
    """The records of a block that belongs to the log's run: just as many as it says, and zeros behind them. Otherwise None."""
    size, count = int.from_bytes(data[24:28], "little"), int.from_bytes(data[28:32], "little")
    if size > 2000 or any(data[32 + size : 2032]):
        return None
    try:
        c = Cursor(data[32 : 32 + size])
        records = [read_record(c, log) for _ in range(count)]
    except Unreadable:
        return None
    return records if c.at == size else None


def read_run(area, log, generation, head):
    """The run of a log: (place, records or None) for each block."""
    run = []
    for q in range(head, head + BLOCKS):
        data = bytes(area[2048 * (q % BLOCKS) : 2048 * (q % BLOCKS) + 2048])
        if not is_sealed(b"LEANLOGB", data, 2048) or [word_at(data, i) for i in range(3)] != [generation, log, q]:
            break
        run.append((q % BLOCKS, read_block(data, log)))
    return run


def read_slot(data, p, generation):
    """The (generation, number) and contents of page p's slot, where it is valid for a master's generation. Otherwise None."""
    if not is_sealed(b"LEANPAGE", data, 1024):
        return None
    packed, saved = word_at(data, 3), word_at(data, 2)
    pairs = tuple((word_at(data, 6 + 2 * i), word_at(data, 7 + 2 * i)) for i in range(min(packed & 255, ROOM)))
    page = Page(word_at(data, 1), packed >> 16 & 255, Node(packed >> 24 == 1, packed >> 8 & 255, word_at(data, 4), word_at(data, 5), pairs))
    if page_slot(p, saved, page) != data or saved > generation or not is_ordered(page.node.low, pairs, page.node.high):
        return None
    return ((saved, page.gsn), page) if is_storable(page.node) else None


def base_of(area, p, generation):
    """The contents of a page's valid slot of the greatest (generation, number), slot 0 where both have it; None where none is valid."""
    slots = [read_slot(bytes(area[2048 * p + 1024 * i : 2048 * p + 1024 * i + 1024]), p, generation) for i in (0, 1)]
    valid = [s for s in slots if s]
    return max(valid, key=lambda s: s[0])[1] if valid else None


def read_master(area):
    """(generation, floor, heads) of the valid master slot of the greatest sequence number. Limits are not tested: no image breaks them."""
    slots = [bytes(area[1024 * i : 1024 * i + 1024]) for i in (0, 1)]
    data = max((s for i, s in enumerate(slots) if is_sealed(b"LEANMAST", s, 1024) and word_at(s, 1) % 2 == i), key=lambda s: word_at(s, 1))
    return word_at(data, 2), word_at(data, 3), [word_at(data, 7 + i) for i in range(word_at(data, 6))]


# ---- The model: nodes and the tree


def is_rising(low, pairs, high):
    """Keys rise strictly, from low up to, not including, high."""
    for key, _ in pairs:
        if key < low:
            return False
        low = key + 1
    return low <= high


def is_ordered(low, pairs, high):
    """The same; without pairs any fences will do."""
    return not pairs or is_rising(low, pairs, high)


def is_storable(node):
    """A leaf has values and tombstones; an inner node has children other than page 0, the first at its low fence; a free page has nothing."""
    if not node.live:
        return node == FREE
    if len(node.pairs) > ROOM or node.level > LEVELS:
        return False
    if node.level == 0:
        return all(w <= DEAD for _, w in node.pairs)
    return bool(node.pairs) and node.pairs[0][0] == node.low and all(0 < w < PAGES for _, w in node.pairs)


def is_formed(node):
    """A page that a tree may have."""
    return is_storable(node) and (not node.live or is_rising(node.low, node.pairs, node.high))


def spans(node):
    """The children of a live inner node, each with the fences that its pair gives it."""
    if not node.live or node.level == 0:
        return []
    ends = [key for key, _ in node.pairs[1:]] + [node.high]
    return [(child, low, high) for (low, child), high in zip(node.pairs, ends)]


def breaks_tree(pages, p):
    """Page p is not well formed, or no root though it is page 0, or has a wrong child, or is a node that no page names."""
    node = pages[p].node
    if not is_formed(node) or p == 0 and not (node.live and (node.low, node.high) == (0, TOP)):
        return True
    for child, low, high in spans(node):
        c = pages[child].node
        if not c.live or (c.level + 1, c.low, c.high) != (node.level, low, high):
            return True
    return node.live and p != 0 and not any(p == child for q in range(PAGES) for child, _, _ in spans(pages[q].node))


def find(node, key):
    """The word of a key, or None."""
    return dict(reversed(node.pairs)).get(key)


def put(pairs, key, word):
    """The pairs with this word at the key, put in before the first greater key where it is not there."""
    for i, (k, _) in enumerate(pairs):
        if k >= key:
            return pairs[:i] + ((key, word),) + pairs[i + (k == key) :]
    return pairs + ((key, word),)


def holds(node, key):
    """A leaf with the key within its fences."""
    return node.live and node.level == 0 and node.low <= key < node.high


# ---- The model: redo and undo


def applied(r, p, node):
    """What a record makes of its page p."""
    page = [q for q, _ in r.refs]
    if r.kind in WRITES:
        return node._replace(pairs=put(node.pairs, r.key, r.after))
    if r.kind == PURGE:
        return node._replace(pairs=tuple(x for x in node.pairs if x[0] not in r.keys))
    if r.kind == LIFT:
        return node._replace(level=r.level + 1, pairs=((0, page[1]),)) if p == 0 else Node(True, r.level, 0, r.high, r.pairs)
    if r.kind == DROP:
        return node._replace(level=r.level, pairs=r.pairs) if p == 0 else FREE
    if p == page[0]:
        keeps = tuple(x for x in node.pairs if x[0] < r.sep) if r.kind == SPLIT else node.pairs + r.pairs
        return node._replace(high=r.sep if r.kind == SPLIT else r.high, pairs=keeps)
    if p == page[1]:
        return Node(True, r.level, r.sep, r.high, r.pairs) if r.kind == SPLIT else FREE
    return node._replace(pairs=put(node.pairs, r.sep, page[1]) if r.kind == SPLIT else tuple(x for x in node.pairs if x[0] != r.sep))


def is_sayable(r):
    """What a record that counts asks of itself: words of leaves, no page twice, a level, and pairs in order that fit in a node."""
    if r.kind in WRITES:
        return r.before <= DEAD and r.after <= DEAD
    if len(set(page for page, _ in r.refs)) < len(r.refs) or len(r.pairs) > ROOM:
        return False
    if r.kind == SPLIT:
        return r.level <= LEVELS and is_ordered(r.sep, r.pairs, r.high)
    if r.kind == LIFT:
        return r.level < LEVELS and is_ordered(0, r.pairs, r.high)
    return r.kind != DROP or r.level <= LEVELS


def can_change(r, p, node):
    """What it asks of its page p, where it changes that page."""
    page = [q for q, _ in r.refs]
    if r.kind in WRITES:
        has = find(node, r.key) is not None
        return holds(node, r.key) and (has or r.kind == CHANGE and len(node.pairs) < ROOM)
    if r.kind == PURGE:
        return node.live and node.level == 0 and all(find(node, key) is not None for key in r.keys)
    if p == page[1]:
        return True
    if r.kind == LIFT:
        return node.live and node.low <= 0 < node.high
    if r.kind == DROP:
        return node.live and is_ordered(node.low, r.pairs, node.high)
    if r.kind == SPLIT:
        return node.live and node.low < r.sep < node.high and (p == page[0] or len(node.pairs) < ROOM)
    if p == page[0]:
        return node.live and len(node.pairs) + len(r.pairs) <= ROOM and is_ordered(node.low, node.pairs + r.pairs, r.high)
    return node.live and find(node, r.sep) is not None


def counts(r, pages):
    """Each page stands at its prev, or at the record's number or beyond."""
    return all(pages.get(p, NO_PAGE).gsn == prev or pages.get(p, NO_PAGE).gsn >= r.number for p, prev in r.refs)


def changed_by(r, pages):
    """The pages that a record that counts changes: those that stand at their prev."""
    return sorted({p for p, prev in r.refs if pages.get(p, NO_PAGE).gsn == prev})


def passes(r, pages):
    """The record names pages that there are and, if it counts, can be done."""
    if any(p >= PAGES for p, _ in r.refs):
        return False
    return r.kind in ENDS or not counts(r, pages) or is_sayable(r) and all(can_change(r, p, pages[p].node) for p in changed_by(r, pages))


def redo(r, pages):
    """The pages after a record that counts."""
    return pages | {p: Page(r.number, r.log, applied(r, p, pages.get(p, NO_PAGE).node)) for p in changed_by(r, pages)}


class Outcome(NamedTuple):
    """What recovery gives: the damages, the expected one first; and where there are none, counts, base number and pages. And for people the
    fate of each record by (log, number): None where it does not count, else the pages that it changed."""

    damages: list
    winners: int
    undone: int
    base: int
    pages: dict
    fates: dict


def log_damages(log, run):
    """The blocks of a run that are none of records, or have a number that does not rise, in their order."""
    damages, greatest = [], -1
    for place, records in run:
        if records is None:
            damages.append(Damage(1 + log, place, "no block of records"))
        for r in records or ():
            if r.number <= greatest:
                damages.append(Damage(1 + log, place, "a number that does not rise"))
            greatest = max(greatest, r.number)
    return damages


def in_order(runs):
    """The records of all logs by (number, log), each with the place of its block."""
    placed = [(r, place) for run in runs for place, records in run for r in records or ()]
    return sorted(placed, key=lambda x: (x[0].number, x[0].log))


def ends_of(records, runs, floor):
    """The commits whose need the logs reach, and the transactions that are not ended, as (log, txn). The logs reach the least, over all of
    them, of the log's greatest number or the floor, whichever is greater."""
    reach = min(max([floor] + [r.number for _, rs in run for r in rs or ()]) for run in runs)
    reached = [r for r in records if r.kind in ENDS and r.need <= reach]
    return [r for r in reached if r.kind == COMMIT], {(r.log, r.txn) for r in records} - {(r.log, r.txn) for r in reached}


def redo_all(placed, pages):
    """The pages after redo, what became of each record, and the records that can't be done."""
    fates, damages = {}, []
    for r, place in placed:
        if not passes(r, pages):
            damages.append(Damage(1 + r.log, place, f"{KINDS[r.kind]} {r.number} can't be done"))
        fates[r.log, r.number] = changed_by(r, pages) if counts(r, pages) else None
        pages = redo(r, pages) if counts(r, pages) else pages
    return pages, fates, damages


def undo(r, node):
    """The node after a lost write was set back: the leaf that may hold its key gets the word before."""
    return node._replace(pairs=put(node.pairs, r.key, r.before)) if holds(node, r.key) else node


def undo_all(lost, pages):
    """The pages after undo of the lost writes, the last first, and those whose key has no entry in the pages that redo left."""
    damages, undone = [], dict(pages)
    for r, place in reversed(lost):
        if not any(holds(pages[p].node, r.key) and find(pages[p].node, r.key) is not None for p in range(PAGES)):
            damages.append(Damage(1 + r.log, place, f"no entry of key {r.key} for {r.number}"))
        undone = {p: page._replace(node=undo(r, page.node)) for p, page in undone.items()}
    return undone, damages


def recover(areas):
    """What recovery of a disk gives. Damages are looked for to the end, as if each were passed over."""
    generation, floor, heads = read_master(areas[0])
    bases = [base_of(areas[1], p, generation) for p in range(PAGES)]
    damages = [Damage(1, p, "no base") for p in range(PAGES) if bases[p] is None]
    runs = [read_run(areas[1 + log], log, generation, head) for log, head in enumerate(heads, 1)]
    damages += [d for log, run in enumerate(runs, 1) for d in log_damages(log, run)]

    placed = in_order(runs)
    pages, fates, undoable = redo_all(placed, {p: base or NO_PAGE for p, base in enumerate(bases)})
    damages += undoable + [Damage(1, p, "breaks the tree") for p in range(PAGES) if breaks_tree(pages, p)]

    winners, losers = ends_of([r for r, _ in placed], runs, floor)
    lost = [(r, place) for r, place in placed if r.kind in WRITES and (r.log, r.txn) in losers and fates[r.log, r.number] is not None]
    pages, missing = undo_all(lost, pages)
    base = max([floor] + [r.number for r, _ in placed] + [b.gsn for b in bases if b])
    return Outcome(damages + missing, len(winners), len(losers), base, pages, fates)
