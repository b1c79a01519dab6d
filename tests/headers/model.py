#!/usr/bin/env python3
"""Document 01's program, as a model: versions are persistent trees of Python objects, changed as rpds 1.2.1 changes its own.

  model.py < commands > answers     answers the commands
  model.py random SEED STRETCHES    writes commands to try, a hundred and some to a stretch: all kinds, most of them good

Written from document 01 and from rpds's red_black_tree_map/mod.rs, not from the proved code. A step here makes a node anew
wherever that file makes one mutable, so that the nodes a version shares with its parent are the same objects.
"""
import random
import re
import sys

NODES = 2047
SLOTS = 32
LINE_BYTES = 63
LARGEST = 4294967295
RED, BLACK = "red", "black"
NO_VERSION, ABSENT, NO_SLOT, NO_ROOM = 3, 5, 6, 7


class Node:
    """count: how many child places of live nodes, and held slots, name the node; a node is live while that is not 0."""

    __slots__ = ("color", "left", "key", "value", "right", "count")

    def __init__(self, color, left, key, value, right):
        self.color, self.left, self.key, self.value, self.right = color, left, key, value, right
        self.count = 0


def is_red(t):
    return t is not None and t.color == RED


def is_black(t):
    return t is not None and t.color == BLACK


def painted(t, color):
    return Node(color, t.left, t.key, t.value, t.right)


def over(color, left, t, right):
    """The entry of t between two subtrees."""
    return Node(color, left, t.key, t.value, right)


# rpds: balance, insert


def balance(t):
    if t.color == RED:
        return t
    l, r = t.left, t.right
    if is_red(l) and is_red(l.left):
        return over(RED, painted(l.left, BLACK), l, over(BLACK, l.right, t, r))
    if is_red(l) and is_red(l.right):
        m = l.right
        return over(RED, over(BLACK, l.left, l, m.left), m, over(BLACK, m.right, t, r))
    if is_red(r) and is_red(r.left):
        m = r.left
        return over(RED, over(BLACK, l, t, m.left), m, over(BLACK, m.right, r, r.right))
    if is_red(r) and is_red(r.right):
        return over(RED, over(BLACK, l, t, r.left), r, painted(r.right, BLACK))
    return t


def ins(t, key, value):
    """The tree with the entry, and whether the key is new."""
    if t is None:
        return Node(RED, None, key, value, None), True
    if key == t.key:
        return Node(t.color, t.left, key, value, t.right), False
    if key < t.key:
        child, new = ins(t.left, key, value)
        made = over(t.color, child, t, t.right)
    else:
        child, new = ins(t.right, key, value)
        made = over(t.color, t.left, t, child)
    return (balance(made) if new else made), new


def insert(root, key, value):
    made, new = ins(root, key, value)
    made.color = BLACK
    return made, new


# rpds: remove_fuse, remove_balance, remove_balance_left, remove_balance_right, remove


def fuse(l, r):
    if l is None and r is None:
        return None
    if l is None:
        return painted(r, r.color)
    if r is None:
        return painted(l, l.color)
    if l.color == BLACK and r.color == RED:
        return over(RED, fuse(l, r.left), r, r.right)
    if l.color == RED and r.color == BLACK:
        return over(RED, l.left, l, fuse(l.right, r))
    m = fuse(l.right, r.left)
    if is_red(m):
        return over(RED, over(l.color, l.left, l, m.left), m, over(r.color, m.right, r, r.right))
    joined = over(RED, l.left, l, over(r.color, m, r, r.right))
    return joined if l.color == RED else balance_left(joined)


def balance_both(t):
    if is_red(t.left) and is_red(t.right):
        return over(RED, painted(t.left, BLACK), t, painted(t.right, BLACK))
    return balance(t)


def balance_left(t):
    l, r = t.left, t.right
    if is_red(l):
        return over(RED, painted(l, BLACK), t, r)
    if is_black(r):
        return balance_both(over(BLACK, l, t, painted(r, RED)))
    m = r.left
    right = balance_both(over(BLACK, m.right, r, painted(r.right, RED)))
    return over(RED, over(BLACK, l, t, m.left), m, right)


def balance_right(t):
    l, r = t.left, t.right
    if is_red(r):
        return over(RED, l, t, painted(r, BLACK))
    if is_black(l):
        return balance_both(over(BLACK, painted(l, RED), t, r))
    m = l.right
    left = balance_both(over(BLACK, painted(l.left, RED), l, m.left))
    return over(RED, left, m, over(BLACK, m.right, t, r))


def delete(t, key):
    if key == t.key:
        return fuse(t.left, t.right)
    if key < t.key:
        made = over(RED, delete(t.left, key), t, t.right)
        return balance_left(made) if is_black(t.left) else made
    made = over(RED, t.left, t, delete(t.right, key))
    return balance_right(made) if is_black(t.right) else made


def remove(root, key):
    """The tree without the key, which it has."""
    made = delete(root, key)
    return None if made is None else painted(made, BLACK)


# Document 01: versions, reserves and refusals


def find(t, key):
    while t is not None and t.key != key:
        t = t.left if key < t.key else t.right
    return t


def listing(t):
    if t is not None:
        yield from listing(t.left)
        yield t
        yield from listing(t.right)


def height(size):
    """H(0) = 0 and otherwise H(n) = 2 * floor(log2(n + 1))."""
    return 0 if size == 0 else 2 * ((size + 1).bit_length() - 1)


class Refused(Exception):
    pass


class Arena:
    def __init__(self):
        self.slots = [None] * SLOTS  # None, or a root and a size
        self.live = 0

    def count_up(self, t):
        if t is not None:
            t.count += 1
            if t.count == 1:
                self.live += 1
                self.count_up(t.left)
                self.count_up(t.right)

    def count_down(self, t):
        if t is not None:
            t.count -= 1
            if t.count == 0:
                self.live -= 1
                self.count_down(t.left)
                self.count_down(t.right)

    def version(self, s):
        if s >= SLOTS or self.slots[s] is None:
            raise Refused(NO_VERSION)
        return self.slots[s]

    def slot(self):
        if None not in self.slots:
            raise Refused(NO_SLOT)
        return self.slots.index(None)

    def reserve(self, needed):
        if NODES - self.live < needed:
            raise Refused(NO_ROOM)

    def hand_out(self, s, root, size):
        self.count_up(root)
        self.slots[s] = (root, size)
        return [str(s)]

    def new(self):
        return self.hand_out(self.slot(), None, 0)

    def hold(self, s):
        root, size = self.version(s)
        return self.hand_out(self.slot(), root, size)

    def set(self, s, key, value):
        root, size = self.version(s)
        free = self.slot()
        self.reserve(height(size) + 1)
        made, new = insert(root, key, value)
        return self.hand_out(free, made, size + 1 if new else size)

    def cut(self, s, key):
        root, size = self.version(s)
        free = self.slot()
        if find(root, key) is None:
            return self.hand_out(free, root, size)
        self.reserve(6 * height(size) + 2)
        return self.hand_out(free, remove(root, key), size - 1)

    def drop(self, s):
        root, _ = self.version(s)
        self.slots[s] = None
        self.count_down(root)
        return ["ok"]

    def get(self, s, key):
        root, _ = self.version(s)
        t = find(root, key)
        if t is None:
            raise Refused(ABSENT)
        return [str(t.value)]

    def list(self, s):
        root, _ = self.version(s)
        return ["%d %d" % (t.key, t.value) for t in listing(root)] + ["end"]


# Lines

NUMBER = rb"(0|[1-9][0-9]*)"
FORMS = [
    (re.compile(b" ".join([word] + [NUMBER] * numbers)), word.decode())
    for word, numbers in ((b"new", 0), (b"hold", 1), (b"set", 3), (b"cut", 2), (b"drop", 1), (b"get", 2), (b"list", 1))
]


def answer(arena, line):
    if len(line) <= LINE_BYTES:
        for form, call in FORMS:
            said = form.fullmatch(line)
            if said and all(int(n) <= LARGEST for n in said.groups()):
                try:
                    return getattr(arena, call)(*map(int, said.groups()))
                except Refused as refusal:
                    return ["R %d" % refusal.args[0]]
    return ["?"]


def answer_all(read, write):
    arena = Arena()
    lines = read.read().split(b"\n")
    if lines[-1] == b"":
        lines.pop()
    for line in lines:
        write.write("".join(a + "\n" for a in answer(arena, line)).encode())


# Commands to try

BAD = ["", "new ", " new", "get 1", "set 0 1", "set 0 01 2", "cut 0 1 2", "hold  1", "get 0 4294967296", "list", "x" * 64, "drop +1"]


class Writer:
    """Writes commands and answers them itself, to know the slots. Its last version grows and shrinks, and others are kept beside it."""

    def __init__(self, seed):
        self.pick, self.arena, self.last = random.Random(seed), Arena(), 0

    def say(self, line):
        print(line)
        return answer(self.arena, line.encode())[-1]

    def go_on(self, line, kept):
        """The answer's slot has the last version from here on; the one before is dropped, or kept."""
        slot = self.say(line)
        if slot == "R 6" and self.pick.random() < 0.5:
            self.drop_others(self.pick.randrange(12))
        if slot.isdigit():
            if not kept:
                self.say("drop %d" % self.last)
            self.last = int(slot)

    def drop_others(self, count):
        for s in self.pick.sample([s for s in range(SLOTS) if s != self.last], count):
            self.say("drop %d" % s)

    def step(self, growth, keys, keeping):
        pick, key = self.pick, self.pick.randrange(keys) * (LARGEST // keys)
        roll = pick.random()
        if roll < 0.02:
            self.say(pick.choice(BAD))
        elif roll < 0.20:
            self.say("%s %d %d" % (pick.choice(["get", "get", "cut"]), pick.choice([self.last, pick.randrange(34)]), key))
        elif roll < 0.30:
            self.say("%s %d" % (pick.choice(["drop", "hold"]), pick.choice([s for s in range(34) if s != self.last])))
        elif pick.random() < growth:
            self.go_on("set %d %d %d" % (self.last, key, pick.randrange(LARGEST + 1)), pick.random() < keeping)
        else:
            self.go_on("cut %d %d" % (self.last, key), pick.random() < keeping)

    def stretch(self):
        """A hundred steps of one kind, at times after a new start, and then a listing."""
        pick = self.pick
        growth, keys, keeping = pick.choice([0.1, 0.5, 0.9, 1, 1, 1]), pick.choice([12, 300, 5000, 5000, 5000]), pick.choice([0, 0, 0.1, 0.5])
        if pick.random() < 0.03:
            self.drop_others(SLOTS - 1)
            self.say("drop %d" % self.last)
        if self.say("get %d 0" % self.last) == "R 3":
            self.last = int(self.say("new"))
        for _ in range(100):
            self.step(growth, keys, keeping)
        self.say("list %d" % self.last)


def random_lines(seed, stretches):
    writer = Writer(seed)
    writer.say("x" * 70000)
    for _ in range(stretches):
        writer.stretch()


if __name__ == "__main__":
    if len(sys.argv) == 4 and sys.argv[1] == "random":
        random_lines(int(sys.argv[2]), int(sys.argv[3]))
    elif len(sys.argv) == 1:
        answer_all(sys.stdin.buffer, sys.stdout.buffer)
    else:
        sys.exit(__doc__)
