"""Holds what the program checkmask prints of masks that pass to the reference model, line by line.

The masks are those of bound_programs.py, always the same. At the first difference the mask is saved under
target/differential and the exit status is 1; so it is where the masks meet too little of what tells the rule
from another. Run as a program it compares these alone. Build it first: tools/build checkmask
"""

import collections
import itertools
import multiprocessing
import random

import paths  # noqa: F401
import bound_programs
import reference
from comparing import built, differs, first_difference, run_program, start, stop
from reference import NO_BOUND, NOT_REACHED
from stored import printed

CHECKMASK = built('checkmask')
PASSED = 2000       # masks to compare, at least

# What the lines must meet, and how often, so that they tell the rule from another.
LIMITS = {10: 3000, 100: 500, 1000: 100, 4000: 20, 7500: 5}
MUST_MEET = {
    'not reached': 400, 'bounded': 4000, 'no bound, by a loop': 500, 'no bound, by a HALT': 200, 'no bound, by both': 30, 'two totals': 2000,
    'an EI on the way': 800, '2 to the 60 chains': 200, 'over 7FFh': 50, **{f'over {limit}': many for limit, many in LIMITS.items()},
    'a vector that is called': 50, 'an address in both levels': 500, 'an address called twice': 300, 'failed': 20,
    'no pair above main': 50, 'longest wait bounded': 1000, 'by two pairs': 20, 'longest wait without bound': 300, 'and it starts on no line': 20,
    'and others have one': 200}


def reached(follow, pair):
    """The pairs of the chains from a pair."""
    found, todo = {pair}, [pair]
    while todo:
        new = follow[todo.pop()] - found
        found |= new
        todo += new
    return found


def loops(follow, pairs):
    """Whether some of these go round: what is left without those that lead to none that is left."""
    left = set(pairs)
    while True:
        ends = {pair for pair in left if not follow[pair] & left}
        if not ends:
            return bool(left)
        left -= ends


def chains_and_least(mask, follow, pair, known):
    """How many chains lead from a bounded pair to a return, and their smallest total."""
    todo = [pair]
    while todo:
        one = todo[-1]
        new = [after for after in follow[one] if after not in known]
        if new:
            todo += new
            continue
        todo.pop()
        after = [known[each] for each in follow[one]] or [(1, 0)]
        cycles = reference.fetch(mask, one[0]).code.cycles
        known[one] = sum(many for many, _ in after), cycles + min(least for _, least in after)
    return known[pair]


def note_lines(met, mask, lines, answers):
    """Notes what the lines of vectors and of CALLs' targets are about."""
    follow, known = {pair: reference.onward(mask, *pair) for pair in answers}, {}
    for pair in lines:
        answer = answers.get(pair, NOT_REACHED)
        if answer == NOT_REACHED:
            met['not reached'] += 1
            continue
        pairs = reached(follow, pair)
        codes = {reference.fetch(mask, address).code.mnemonic for address, _ in pairs}
        if answer == NO_BOUND:
            met['no bound, by a HALT' if not loops(follow, pairs) else
                'no bound, by both' if 'HALT' in codes else 'no bound, by a loop'] += 1
            continue
        many, least = chains_and_least(mask, follow, pair, known)
        met['bounded'] += 1
        met['two totals'] += least < answer
        met['2 to the 60 chains'] += many >= 2 ** 60
        met['an EI on the way'] += 'EI' in codes
        met['over 7FFh'] += len({address >> 11 for address, _ in pairs}) == 2
        for limit in LIMITS:
            met[f'over {limit}'] += answer > limit


def note(met, mask, marks, answers):
    """Notes what a mask meets."""
    targets = reference.call_targets(mask, marks)
    lines = [(4, 2), (8, 2)] + [(target, 1) for target in targets]
    note_lines(met, mask, lines, answers)
    calls = sum(reference.fetch(mask, address).code.mnemonic == 'CALL addr' for address, mark in enumerate(marks) if mark & 1)
    met['an address called twice'] += calls > len(targets)
    met['a vector that is called'] += 4 in targets or 8 in targets
    met['an address in both levels'] += any(mark & 6 == 6 for mark in marks)
    values = list(answers.values())
    if not values:
        met['no pair above main'] += 1
    elif NO_BOUND in values:
        met['longest wait without bound'] += 1
        met['and it starts on no line'] += min(pair for pair, answer in answers.items() if answer == NO_BOUND) not in lines
        met['and others have one'] += set(values) != {NO_BOUND}
    else:
        met['longest wait bounded'] += 1
        met['by two pairs'] += values.count(max(values)) > 1


def judge(mask):
    """What `checkmask` prints, what it should, what is wrong, and what the mask meets."""
    got, trouble = run_program([CHECKMASK], {'mask.bin': mask})
    met = collections.Counter()
    marks, verdict = reference.checker(mask)
    if verdict == 'passed':
        met['passed'] += 1
        answers = reference.bounds(mask, marks)
        want = printed([verdict] + reference.bound_lines(mask, marks, answers))
        note(met, mask, marks, answers)
    else:       # the way is compared elsewhere
        met['failed'] += 1
        want = reference.verdict_line(verdict).encode() + got[got.find(b'\n'):]
    return got, want, [trouble] * bool(trouble) + [first_difference(want, got)] * (got != want), met


def compare_all():
    masks, met, count = bound_programs.masks(random.Random(1135)), collections.Counter(), 0
    with multiprocessing.Pool() as pool:
        while met['passed'] < PASSED:
            batch = list(itertools.islice(masks, 200))
            for mask, (got, want, why, seen) in zip(batch, pool.map(judge, batch, 10)):
                if why:
                    differs(f'bound, mask {count}', {'mask.bin': mask}, got, why, want)
                met += seen
                count += 1
    few = [f'{name} ({met[name]} of {many})' for name, many in MUST_MEET.items() if met[name] < many]
    if few:
        stop(f'the masks for the bound meet too few of: {", ".join(few)}')
    print(f'differential: the bounds of {met["passed"]} masks that pass, {met["bounded"]} lines with a number, 0 differences')


def main():
    start(CHECKMASK)
    compare_all()


if __name__ == '__main__':
    main()
