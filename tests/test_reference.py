"""The plain readings (tests/reference.py, tests/reference_why.py) held to plainer ways, on random sets and on those of the
repository."""
import glob
import os
import random

import pytest
import reference
import reference_why
from hypothesis import given, note, strategies
from random_sets import set_text
from serving import TOP

# How many random sets are tried, each by its seed.
SEEDS = {"test_walks": 300, "test_random_reasons": 200}


def is_faulty(path):
    """Whether a case wants the set to be told as faulty."""
    told = path.removesuffix(".set") + ".stderr"
    if not os.path.exists(told):
        return False
    with open(told, encoding="utf-8") as file:
        return file.read().startswith("lynx: set line")


def stored_sets():
    """The files of sets without fault under examples and tests/cases, the greatest first: these take longest."""
    found = [path for it in ("examples/**/*.set", "tests/cases/[!sh]*/*.set") for path in glob.glob(os.path.join(TOP, it), recursive=True)
             if not is_faulty(path)]
    return [os.path.relpath(path, TOP) for path in sorted(found, key=lambda path: (-os.path.getsize(path), path))]


def judge(tally, text):
    """The lines of an offending set name all that stands in its way: without the meetings that they name it is accepted."""
    printed, status = reference_why.why(text)
    if status:
        tally.holds(f"mended by\n{printed}of\n{text}",
                    reference_why.is_mended(text, printed) and "\nlate " in printed and "\nmixed " in printed)
    else:
        tally.holds(f"nothing is in the way of\n{text}", "\nlate " not in printed and "\nabroad " not in printed)


@pytest.mark.parametrize("path", stored_sets())
def test_reasons(tally, path):
    with open(os.path.join(TOP, path), encoding="latin-1") as file:
        judge(tally, file.read())


def test_random_reasons(tally, seed):
    judge(tally, set_text(random.Random(seed))[0])


def compare(tally, text):
    """Two ways to look for a walk of blocks that offends agree, and what the picture's rule accepts doesn't offend. Gives
    both verdicts."""
    chains = reference.Set(text)
    found, is_ruled = reference.block_walk_offends(chains), reference.is_accepted_by_the_picture(chains)
    tally.is_same(f"all short walks of\n{text}", reference.short_block_walk_offends(chains), found)
    if is_ruled:
        tally.is_same(f"accepted by the picture:\n{text}", reference.check(text)[1], 0)
    return found, is_ruled


def test_walks(tally, seed):
    compare(tally, reference.small_set(random.Random(seed)))


def test_both_kinds_are_met(tally):
    verdicts = [compare(tally, reference.small_set(random.Random(seed))) for seed in range(60)]
    tally.holds("some offend", any(found for found, _ in verdicts))
    tally.holds("some are accepted by the picture", any(is_ruled for _, is_ruled in verdicts))


@given(strategies.randoms(use_true_random=False))
def test_walks_of_shrinking_sets(chance):
    """The same where hypothesis chooses: a set on which the ways differ is made small."""
    text = reference.small_set(chance)
    note(text)
    chains = reference.Set(text)
    assert reference.short_block_walk_offends(chains) == reference.block_walk_offends(chains)
    assert not reference.is_accepted_by_the_picture(chains) or reference.check(text)[1] == 0
