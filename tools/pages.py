#!/usr/bin/env python3
"""tools/pages.py PROGRAM DIR: makes of the program's help texts a man page for lynx and for each command (DIR/man1), and
completions for bash, zsh and fish (DIR/lynx.bash, DIR/_lynx, DIR/lynx.fish). SOURCE_DATE_EPOCH is the date of the pages.
"""
import itertools
import os
import re
import sys
import time

sys.dont_write_bytecode = True
sys.path.insert(0, os.path.dirname(os.path.abspath(__file__)))
from helps import table_of, version_of  # noqa: E402

# What completes a word: the word that stands for it in the help, and what it names.
FOLDERS = ("DIR", "DIR2", "FROM")
FILES = ("SET", "SCRIPT", "STORE", "DIR|SET")


def roff(text):
    """A text of a man page, of which nothing is read as a request."""
    text = text.replace("\\", "\\e").replace("-", "\\-")
    return re.sub(r"(?m)^([.'])", r"\\&\1", text)


def as_told(lines):
    """Lines as they stand."""
    return [".nf", *(roff(it.removeprefix("  ")) for it in lines), ".fi"]


def examples_of(lines):
    """The lines that are no examples, and the examples."""
    text = "\n".join(lines)
    found = re.search(r"\nExamples?: ((?:.*\n?)+)", "\n" + text)
    told = text[:found.start()] if found else text
    return told.splitlines(), [it.strip() for it in found[1].splitlines()] if found else []


def paragraphs_of(lines):
    """Lines that begin with spaces stand as they are, and others flow."""
    made = []
    for is_told, group in itertools.groupby(lines, lambda it: it.startswith("  ")):
        made += [".RS 4", *as_told(group), ".RE"] if is_told else [".PP", roff(" ".join(group))]
    return made


def words_of(verb):
    """The arguments and options, each a paragraph with a tag."""
    made = [".SH OPTIONS"]
    for argument in verb.arguments:
        made += [".TP", f"\\fI{roff(argument.name)}\\fR", roff(argument.help)]
    for option in verb.options:
        letter = f"\\fB\\-{option.letter}\\fR, " if option.letter else ""
        value = f" \\fI{roff(option.value)}\\fR" if option.value else ""
        made += [".TP", f"{letter}\\fB\\-\\-{roff(option.name)}\\fR{value}", roff(option.help)]
    return made


def usage_of(verb):
    """The synopsis."""
    name = f"lynx {verb.name}".strip()
    return [".SH SYNOPSIS", f".B {name}", roff(verb.usage.removeprefix(name).strip())]


def ends_of(top):
    """The statuses of the program, and what its help tells of faults."""
    lines = top.after[top.after.index("Statuses:") + 1:]
    return lines[:lines.index("")], lines[lines.index("") + 1:]


def see_also(names):
    return [".SH SEE ALSO", ",\n".join(f".BR {name} (1)" for name in names)]


def page(name, about, version, parts):
    """A man page."""
    made = time.strftime("%Y-%m-%d", time.gmtime(int(os.environ.get("SOURCE_DATE_EPOCH", "0"))))
    brief = about[0].lower() + about[1:]
    head = [f'.TH {name.upper()} 1 "{made}" "lynx {version}" "Lynx"', ".SH NAME", f"{roff(name)} \\- {roff(brief)}"]
    return "\n".join(head + [it for part in parts for it in part]) + "\n"


def page_of(verb, top, version, others):
    """The page of a command."""
    told, examples = examples_of(verb.after)
    status = [".SH EXIT STATUS", *as_told(ends_of(top)[0])]
    shown = [".SH EXAMPLES", *as_told(examples)] if examples else []
    return page(f"lynx-{verb.name}", verb.about, version,
                (usage_of(verb), [".SH DESCRIPTION", roff(verb.about) + ".", *paragraphs_of(told)], words_of(verb), status, shown,
                 see_also(["lynx", *(f"lynx-{it}" for it in others if it != verb.name)])))


def page_of_program(top, version):
    """The page lynx(1)."""
    listed = [it for name, about in top.commands for it in (".TP", f"\\fBlynx\\-{name}\\fR(1)", roff(about))]
    statuses, faults = ends_of(top)
    return page("lynx", "A transaction-chain store", version,
                (usage_of(top), [".SH DESCRIPTION", roff(top.about)], [".SH COMMANDS", *listed], words_of(top),
                 [".SH EXIT STATUS", *as_told(statuses)], [".SH FAULTS", *paragraphs_of(faults)[1:]],
                 see_also([f"lynx-{name}" for name, _ in top.commands])))


def kind_of(word):
    """What a word names: folder, file, or nothing that can be completed."""
    return "folder" if word in FOLDERS else "file" if word in FILES else ""


BASH = """# bash completion for lynx, made by tools/pages.py of the program's help
_lynx()
{
    local current=${COMP_WORDS[COMP_CWORD]} before=${COMP_WORDS[COMP_CWORD - 1]} options
    COMPREPLY=()
    if ((COMP_CWORD == 1)); then
        mapfile -t COMPREPLY < <(compgen -W "%(commands)s" -- "$current")
        return
    fi
    case ${COMP_WORDS[1]}:$before in
%(values)s
    esac
    case ${COMP_WORDS[1]} in
%(options)s
        *) return ;;
    esac
    if [[ $current == -* ]]; then
        mapfile -t COMPREPLY < <(compgen -W "$options" -- "$current")
    else
        compopt -o filenames 2> /dev/null
        mapfile -t COMPREPLY < <(compgen -f -- "$current")
    fi
}
complete -F _lynx lynx
"""


def flags_of(verb):
    """The words of its options."""
    return [flag for it in verb.options for flag in ([f"-{it.letter}"] if it.letter else []) + [f"--{it.name}"]]


def bash_of(top, verbs):
    """The completion for bash."""
    folders = [f"{verb.name}:--{it.name}" for verb in verbs for it in verb.options if kind_of(it.value) == "folder"]
    others = [f"{verb.name}:--{it.name}" for verb in verbs for it in verb.options if it.value and not kind_of(it.value)]
    values = [f"        {' | '.join(folders)})\n            compopt -o filenames 2> /dev/null\n"
              '            mapfile -t COMPREPLY < <(compgen -d -- "$current")\n            return\n            ;;',
              f"        {' | '.join(others)}) return ;;"]
    return BASH % {"commands": " ".join([*(it.name for it in verbs), "help", *flags_of(top)]), "values": "\n".join(values),
                   "options": "\n".join(f'        {it.name}) options="{" ".join(flags_of(it))}" ;;' for it in verbs)}


def brief(text, most=70):
    """The beginning of a help, for a line of a menu."""
    text = re.split(r"[:;,.]( |$)", text)[0]
    return text if len(text) <= most else text[:most].rpartition(" ")[0]


def zsh_quoted(text):
    """A text within single quotes and brackets of zsh's _arguments."""
    return text.replace("\\", "\\\\").replace("'", "'\\''").replace("[", "\\[").replace("]", "\\]").replace(":", "\\:")


def zsh_words(verb):
    """The words of _arguments."""
    act = {"folder": "_files -/", "file": "_files", "": " "}
    made = []
    for it in verb.options:
        told = zsh_quoted(brief(it.help))
        value = f":{it.value}:{act[kind_of(it.value)]}" if it.value else ""
        made.append(f"'(-{it.letter} --{it.name})'{{-{it.letter},--{it.name}}}'[{told}]'" if it.letter
                    else f"'--{it.name}[{told}]{value}'")
    for place, it in enumerate(verb.arguments, 1):
        made.append(f"'{place}:{':' if not it.is_needed else ''}{it.name.lower()}:{act[kind_of(it.name)]}'")
    return made


def zsh_of(top, verbs):
    """The completion for zsh."""
    commands = "\n".join(f"    '{it.name}:{zsh_quoted(brief(it.about))}'" for it in verbs)
    line = " \\\n        "
    cases = "\n".join(f"    {it.name})\n      _arguments{line}{line.join(zsh_words(it))}\n      ;;" for it in verbs)
    return (f"#compdef lynx\n# zsh completion for lynx, made by tools/pages.py of the program's help\n"
            f"local -a verbs\nverbs=(\n{commands}\n)\n"
            f"if (( CURRENT == 2 )); then\n  _describe command verbs\n  _arguments \\\n    " +
            " \\\n    ".join(zsh_words(top)) +
            f"\nelse\n  local verb=$words[2]\n  shift words\n  (( CURRENT-- ))\n  case $verb in\n{cases}\n  esac\nfi\n")


def fish_quoted(text):
    return text.replace("\\", "\\\\").replace("'", "\\'")


def fish_of(top, verbs):
    """The completion for fish."""
    made = ["# fish completion for lynx, made by tools/pages.py of the program's help", "complete -c lynx -f"]
    for verb in [top, *verbs]:
        when = f"__fish_seen_subcommand_from {verb.name}" if verb.name else "__fish_use_subcommand"
        if verb.name:
            made.append(f"complete -c lynx -n __fish_use_subcommand -a {verb.name} -d '{fish_quoted(brief(verb.about))}'")
        if any(kind_of(it.name) for it in verb.arguments):
            made.append(f"complete -c lynx -n '{when}' -F")
        for it in verb.options:
            letter, kind = f" -s {it.letter}" if it.letter else "", kind_of(it.value)
            value = " -x -a '(__fish_complete_directories)'" if kind == "folder" else " -x" if it.value else ""
            made.append(f"complete -c lynx -n '{when}'{letter} -l {it.name}{value} -d '{fish_quoted(brief(it.help))}'")
    return "\n".join(made) + "\n"


def made_of(program):
    """The pages and the completions: each file by its name."""
    top, verbs = table_of(program)
    version, names = version_of(program), [it.name for it in verbs]
    files = {f"man1/lynx-{it.name}.1": page_of(it, top, version, names) for it in verbs}
    return {**files, "man1/lynx.1": page_of_program(top, version), "lynx.bash": bash_of(top, verbs), "_lynx": zsh_of(top, verbs),
            "lynx.fish": fish_of(top, verbs)}


def main(words):
    if len(words) != 2:
        print(__doc__)
        return 2
    for name, text in made_of(words[0]).items():
        path = os.path.join(words[1], name)
        os.makedirs(os.path.dirname(path), exist_ok=True)
        with open(path, "w", encoding="utf-8") as file:
            file.write(text)
    return 0


if __name__ == "__main__":
    sys.exit(main(sys.argv[1:]))
