"""The blocks of a set that stand in its way, by a plain reading of docs/FORMATS.md that was written apart from the program:
tests/reference_why.py prints them, and tests/reference_picture.py draws them."""
import os
import sys

sys.path.insert(0, os.path.dirname(os.path.abspath(__file__)))
sys.dont_write_bytecode = True
import reference


def abroad(chains):
    """For each hop that may conflict with hops of programs of another origin those hops, all in the order of the set."""
    every = reference.places(chains)
    met = {place: [other for other in every if reference.meet(chains, place, other)] for place in every}
    return {place: others for place, others in met.items() if others}


def late_blocks(chains, reach):
    """The blocks that aren't forward, and that are entered and left by hops that reach abroad, as pairs of these hops: by the
    hop entered, those of one chain first, then those of two chains of different programs."""
    found = []
    for entered in reach:
        server = chains.hops(entered[0])[entered[1]][0]
        found += [(entered, left) for left in reach if left[0] == entered[0] and left[1] < entered[1]]
        for left in reach:
            been = [other for other, _ in chains.hops(left[0])[:left[1] + 1]]
            if left[0] != entered[0] and chains.origin(left[0]) == chains.origin(entered[0]) and server not in been:
                found.append((entered, left))
    return found
