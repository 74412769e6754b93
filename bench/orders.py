"""Order records for the largest floor, a class of them each; the same bytes on every machine."""

import random

SIDE = 16
SLOTS = 3 * SIDE * SIDE
KINDS = 16
ALL_KINDS = 0xFFFF


class Draw:
    """Random numbers from `random()` alone, the one method whose sequence Python promises never to change."""

    def __init__(self, seed):
        self.source = random.Random(seed)

    def below(self, bound):
        return int(self.source.random() * bound)

    def shuffled(self, count):
        items = list(range(count))
        for last in range(count - 1, 0, -1):
            other = self.below(last + 1)
            items[last], items[other] = items[other], items[last]
        return items


def head(rule):
    return b"LFO\x00\x01" + bytes([(SIDE - 1) << 4 | (SIDE - 1), rule])


def entries(numbers):
    return b"".join(number.to_bytes(2, "big") for number in numbers)


def number_record(wanted):
    return head(1) + entries(wanted)


def kind_record(kinds, masks):
    return head(2) + bytes(kinds) + entries(masks)


def random_kinds(draw, count):
    return [draw.below(count) for _ in range(SLOTS)]


def number(draw):
    return number_record(draw.shuffled(SLOTS))


def reversed_order(_draw):
    return number_record(range(SLOTS - 1, -1, -1))


def random_masks(draw, count):
    """Each slot admits the kind of a carrier of its own, so that the order can be filled, and others at random."""
    kinds = random_kinds(draw, count)
    own = draw.shuffled(SLOTS)
    return kind_record(kinds, [1 << kinds[own[slot]] | draw.below(1 << count) for slot in range(SLOTS)])


def kind4(draw):
    return random_masks(draw, 4)


def kind16(draw):
    return random_masks(draw, 16)


def allmasks(draw):
    return kind_record(random_kinds(draw, KINDS), [ALL_KINDS] * SLOTS)


def ladder(_draw):
    """Slots from the front admit 16 kinds, then 15, down to one, so that each must leave the low kinds to later ones."""
    step = SLOTS // KINDS
    return kind_record([c // step for c in range(SLOTS)], [ALL_KINDS >> s // step for s in range(SLOTS)])


def lextrap(_draw):
    """The front half admits all, and the back half kind 0 alone, which the front half of the carriers has."""
    half = SLOTS // 2
    kinds = [0 if c < half else 1 + c % (KINDS - 1) for c in range(SLOTS)]
    return kind_record(kinds, [ALL_KINDS] * half + [1] * half)


def latefail(_draw):
    """Nobody admits the last carrier's kind, which shows with the last slot only."""
    kinds = [c % (KINDS - 1) for c in range(SLOTS - 1)] + [KINDS - 1]
    return kind_record(kinds, [ALL_KINDS >> 1] * SLOTS)


def unfillable(draw):
    """One more slot wants the lower half of the kinds than there are carriers of these."""
    kinds = random_kinds(draw, KINDS)
    lower = sum(kind < KINDS // 2 for kind in kinds)
    masks = [ALL_KINDS] * SLOTS
    for slot in draw.shuffled(SLOTS)[: lower + 1]:
        masks[slot] = ALL_KINDS >> KINDS // 2
    return kind_record(kinds, masks)


def chain(draw):
    """Each slot admits its own kind and the one below, so that one displaced carrier displaces a row of others."""
    kinds = [c * KINDS // SLOTS for c in range(SLOTS)]
    own = draw.shuffled(SLOTS)
    return kind_record(kinds, [3 << kinds[own[s]] >> 1 & ALL_KINDS for s in range(SLOTS)])


def empty(_draw):
    """No record at all, so that the time is that of starting and ending."""
    return b""


CLASSES = {
    "empty": empty,
    "number": number,
    "reversed": reversed_order,
    "kind4": kind4,
    "kind16": kind16,
    "allmasks": allmasks,
    "ladder": ladder,
    "lextrap": lextrap,
    "latefail": latefail,
    "unfillable": unfillable,
    "chain": chain,
}


def record(name, seed):
    return CLASSES[name](Draw(f"{name} {seed}"))
