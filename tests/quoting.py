#!/usr/bin/env python3
"""The contracts that the pages crates/*/CALLING.md quote, as the sources have them.

    tests/quoting.py --write    writes again what the pages quote, below '## Contracts': the functions that stand there, of the
                                impls or traits that the lines '// impl ..' name
"""
import os
import re
import sys
import textwrap

TOP = os.path.dirname(os.path.dirname(os.path.abspath(__file__)))
QUOTED = re.compile(r"(## Contracts\n[\s\S]*?```rust\n)([\s\S]*?)(```)")
OWNER, FUNCTION = re.compile(r"(?:impl|pub trait)\b.*"), re.compile(r"( *)(?:pub )?(?:const )?fn (\w+)")


def read(path):
    with open(os.path.join(TOP, path), encoding="utf-8") as file:
        return file.read()


def head(lines, at, in_trait):
    """A function's signature and clauses, without comments and attributes, from that line on."""
    indent, kept = len(lines[at]) - len(lines[at].lstrip()), []
    for line in lines[at:]:
        words = line.strip()
        if words in ("{", "{}") and len(line) - len(words) == indent:
            break
        if words and not words.startswith(("//", "#[")):
            kept.append(line)
        if re.search(r" \{(\})?$", line) and not any(re.match(r"\s*(ensures|requires)", it) for it in kept):
            kept[-1] = re.sub(r" \{(\})?$", "", line)
            break
        if in_trait and words.endswith(";"):
            break
    return textwrap.dedent("\n".join(kept)).rstrip()


def heads_of(crate):
    """Of a crate's functions the head, by the impl or trait that they are of and by name."""
    found = {}
    sources = os.path.join(TOP, "crates", crate, "src")
    for path in sorted(os.path.join(folder, name) for folder, _, files in os.walk(sources) for name in files):
        lines, owner = read(path).split("\n"), ""
        for at, line in enumerate(lines):
            owner = line.rstrip(" {") if OWNER.match(line) else "" if line.startswith("}") else owner
            function = FUNCTION.match(line)
            if function:
                found.setdefault((owner if function[1] else "", function[2]), head(lines, at, owner.startswith("pub trait")))
    return found


def quoted(page, text):
    """What the page has to quote: of each function that it names the head; a line for what isn't there."""
    heads, owner, blocks = heads_of(page.split("/")[1]), "", []
    for block in QUOTED.search(text)[2].strip().split("\n\n"):
        owner = block.removeprefix("// ") if block.startswith("// ") else owner
        function = FUNCTION.match(block)
        if not function:
            blocks.append(block)
        else:
            blocks.append(heads.get((owner, function[2])) or heads.get(("", function[2])) or f"// {function[2]} isn't there")
    return "\n\n".join(blocks) + "\n"


def stale(pages):
    """The pages that quote what the sources haven't."""
    for page in pages:
        text = read(page)
        if QUOTED.search(text) and QUOTED.search(text)[2] != quoted(page, text):
            yield f"{page} quotes contracts otherwise than the sources have them: tests/quoting.py --write writes them again"


def main(words):
    if words != ["--write"]:
        sys.exit(__doc__)
    for crate in sorted(os.listdir(os.path.join(TOP, "crates"))):
        page = f"crates/{crate}/CALLING.md"
        if os.path.isfile(os.path.join(TOP, page)):
            text = read(page)
            with open(os.path.join(TOP, page), "w", encoding="utf-8") as file:
                file.write(QUOTED.sub(lambda found: found[1] + quoted(page, text) + found[3], text))


if __name__ == "__main__":
    main(sys.argv[1:])
