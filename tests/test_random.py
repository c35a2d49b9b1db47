"""Random sets and scripts, the same each time, run by the program; each fourth is also judged and drawn, the set and the run, and
compared with the plain readings in tests/reference.py, tests/reference_picture.py, tests/reference_chart.py and
tests/reference_why.py."""
import random
import subprocess

import reference
import reference_chart
import reference_picture
import reference_why
from random_sets import script, set_text

SEEDS = {"test_run": 2000}


def test_run(tally, program, tmp_path, seed):
    rng = random.Random(seed)
    text, programs = set_text(rng)
    events = script(rng, text, programs, rng.choice([5, 15, 40]))
    paths = [tmp_path / name for name in ("set", "script")]
    for path, content in zip(paths, (text, events)):
        path.write_text(content, encoding="ascii")

    def compare(wanted, *words):
        ran = subprocess.run([program, *words], stdin=subprocess.DEVNULL, capture_output=True, text=True, timeout=60)
        tally.is_same(f"{words[:-1]} of\n{text}--\n{events}", (ran.stdout, ran.returncode, ran.stderr), (*wanted, ""))

    of_run = reference.run(text, events)
    compare(of_run, "run", *paths)
    assert not of_run[1] or reference.check(text)[1], "an accepted set runs into a cycle"
    if seed % 4 == 0:
        compare(reference.check(text), "check", paths[0])
        compare(reference_why.summary(text), "check", "--why", paths[0])
        compare(reference_why.why(text), "check", "--why", "--all", paths[0])
        compare(reference_picture.picture(text), "draw", paths[0])
        compare(reference_picture.picture(text, "--walk"), "draw", "--walk", paths[0])
        compare(reference_picture.picture(text, "--late"), "draw", "--late", paths[0])
        compare(reference_chart.chart(text, events), "draw", *paths)
