"""What a power cut may leave of the writes that a disk was asked for.

A disk has a cache that is lost: each write that came by a moment and isn't certain may be on it or not, whole or in
part, but each block of 4 KiB is written whole or not at all.
"""
from typing import NamedTuple

MOST_DRAWS = 10  # for each cut that is wanted
SHARES = (0.2, 0.5, 0.8)


class Cut(NamedTuple):
    moment: int
    kind: str
    kept: dict  # the numbers of the pieces that are kept of a write that isn't certain


def whole(writes):
    return {write: range(len(write.pieces)) for write in writes}


def left(writes, cut):
    """The sectors that were written, each as the last write has it that is on the disk."""
    sectors = {}
    for write in writes:
        is_certain = write.certain <= cut.moment
        for number in range(len(write.pieces)) if is_certain else cut.kept.get(write, ()):
            sectors.update(write.pieces[number])
    return sectors


def none(_uncertain, _chance):
    return {}


def all_of(uncertain, _chance):
    return whole(uncertain)


def only_one(uncertain, chance):
    return whole([chance.choice(uncertain)])


def all_but_one(uncertain, chance):
    lost = chance.choice(uncertain)
    return whole(write for write in uncertain if write is not lost)


def some(uncertain, chance):
    share = chance.choice(SHARES)
    return whole(write for write in uncertain if chance.random() < share)


def torn(uncertain, chance):
    """The last write up to a block or from one on, with all others or alone."""
    count = len(uncertain[-1].pieces)
    end = chance.randrange(count + 1)
    others = chance.choice(([], uncertain[:-1]))
    return {**whole(others), uncertain[-1]: chance.choice((range(end), range(end, count)))}


def blocks(uncertain, chance):
    """Any blocks of any writes."""
    share = chance.choice(SHARES)
    return {write: [n for n in range(len(write.pieces)) if chance.random() < share] for write in uncertain}


BY_CHANCE = (only_one, all_but_one, some, torn, blocks)


def cut_at(moment, choose, writes, chance):
    uncertain = [write for write in writes if write.arrived <= moment < write.certain]
    return Cut(moment, choose.__name__, choose(uncertain, chance) if uncertain else {})


def drawn_cuts(moments, promised, writes, draws, chance):
    """None and all at each moment, in any order; then others, half of them after the promise."""
    plain = [(moment, choose) for moment in moments for choose in (none, all_of)]
    for moment, choose in chance.sample(plain, len(plain)):
        yield cut_at(moment, choose, writes, chance)
    sides = range(moments.start, promised), range(promised, moments.stop)
    for _ in range(draws):
        yield cut_at(chance.choice(chance.choice(sides)), chance.choice(BY_CHANCE), writes, chance)


def different_cuts(moments, promised, writes, count, chance):
    """As many cuts as are wanted, if there are; no two leave one disk on one side of the promise."""
    plain, seen = 0, set()
    for cut in drawn_cuts(moments, promised, writes, MOST_DRAWS * count, chance):
        if len(seen) == count:
            return
        is_plain = cut.kind in (none.__name__, all_of.__name__)
        key = hash((frozenset(left(writes, cut).items()), cut.moment >= promised))
        if key not in seen and not (is_plain and plain > count // 2):
            plain += is_plain
            seen.add(key)
            yield cut
