"""Highlighting of sets and scripts, by vim and by the TextMate grammars, over all that the repository has: each word of a line
that fits a form of docs/FORMATS.md is shown as what the form says, and each line that fits none as an error."""
import json
import os
import re

from serving import TOP, Tally, end_of

EDITORS = os.path.join(TOP, "editors")

# The words of each line's form, as docs/FORMATS.md has them: what each is. `value` is a number or a name by its first letter, and
# `interval` two numbers with .. between them; `*` is for any more words.
FORMS = {
    "lynx": ["keyword", "version"], "servers": ["keyword", "number"], "table": ["keyword", "table"],
    "shard": ["keyword", "number", "number", "number"], "program": ["keyword", "program", "*variable"],
    "range": ["keyword", "variable", "interval"], "hop": ["keyword", "number"], "end": ["keyword"],
    "get": ["action", "variable", "table", "value"],
    **dict.fromkeys(("set", "add", "sub", "max"), ["action", "table", "value", "value"]),
    "let": ["action", "variable", "value", "sign", "value"], "need": ["action", "value", "relation", "value"],
}
EVENTS = {
    "begin": ["action", "number", "number", "number", "program", "*number"], "deliver": ["action", "chain", "number"],
    "lose": ["action", "chain", "number"], "wake": ["action", "number"], "restart": ["action", "number"],
}
NAME, NUMBER = "[a-z][a-z0-9_]*", "[0-9]+"
FITS = {
    "keyword": NAME, "action": NAME, "table": NAME, "program": NAME, "variable": NAME, "number": NUMBER, "version": "[12]",
    "value": f"{NAME}|{NUMBER}", "interval": rf"{NUMBER}\.\.{NUMBER}", "chain": f"{NUMBER}:{NUMBER}", "sign": "[-+]",
    "relation": "<|<=|=|!=|>=|>",
}
MOST = 8

# vim looks no further in a line ('synmaxcol').
COLUMNS = 3000

# What the groups of vim and the scopes of the grammars stand for.
GROUPS = {
    "lynxKeyword": "keyword", "lynxAction": "action", "lynxNumber": "number", "lynxOperator": "operator",
    "lynxInterval": "operator", "lynxParameter": "variable", "lynxRanged": "variable", "lynxBound": "variable",
    "lynxTableName": "table", "lynxRead": "table",
    "lynxWritten": "table", "lynxProgramName": "program", "lynxChain": "chain", "lynxError": "error",
    # A name in the place of a value is plain text in the line of an action.
    "lynxLine": "variable",
}
SCOPES = {
    "keyword.control": "keyword", "keyword.other": "action", "constant.numeric": "number", "keyword.operator": "operator",
    "variable.parameter": "variable", "variable.other": "variable", "entity.name.type": "table",
    "entity.name.function": "program", "constant.other": "chain", "invalid.illegal": "error",
}

VIM = ["vim.basic", "-u", "NONE", "-i", "NONE", "-n", "-N", "-es", "--cmd", f"set rtp^={EDITORS}/vim", "-c", "filetype on"]

DUMP = r"""
function! Dump()
  let out = []
  for number in range(1, line('$'))
    let row = []
    for column in range(1, len(getline(number)))
      call add(row, synIDattr(synID(number, column, 1), 'name'))
    endfor
    call add(out, join(row, ' '))
  endfor
  return out
endfunction
"""


def kind_of(kind, word):
    """What a word is shown as, by its place."""
    if kind == "value":
        return "number" if word[:1].isdigit() else "variable"
    return {"version": "number", "sign": "operator", "relation": "operator"}.get(kind, kind)


def wanted(line, forms):
    """What each column of a line is shown as; None between words."""
    words = line.split(" ")
    kinds = list(forms.get(words[0], ()))
    if kinds and kinds[-1].startswith("*"):
        more = len(words) - len(kinds) + 1
        kinds[-1:] = [kinds[-1][1:]] * more if 0 <= more <= MOST else []
    if len(words) != len(kinds) or not all(re.fullmatch(FITS[kind], word) for kind, word in zip(kinds, words)):
        return ["error"] * len(line)
    columns = []
    for kind, word in zip(kinds, words):
        dots = word.find("..") if kind == "interval" else -1
        columns += [None] if columns else []
        columns += (["number"] * dots + ["operator"] * 2 + ["number"] * (len(word) - dots - 2) if dots >= 0
                    else [kind_of(kind, word)] * len(word))
    return columns


def texts(ending):
    """All sets, or scripts, of the repository that are ASCII, by their paths."""
    names = end_of(["git", "ls-files", "--cached", "--others", "--exclude-standard", f"*{ending}"], cwd=TOP)[0].split()
    found = {}
    for name in names:
        with open(os.path.join(TOP, name), "rb") as file:
            data = file.read()
        if data.isascii() and not re.search(rb"[^\n -~]", data):
            found[name] = data.decode()
    return found


def by_vim(kind, files, tmp_path):
    """What vim shows the columns of each line of each file as."""
    out = tmp_path / f"{kind}.out"
    script = tmp_path / f"{kind}.vim"
    lines = [DUMP]
    for name in files:
        lines += [f"edit {os.path.join(TOP, name)}", f"if &filetype !=# '{kind}' | setlocal filetype={kind} | endif",
                  f"call writefile(Dump() + ['--'], '{out}', 'a')"]
    script.write_text("\n".join([*lines, "qall!", ""]))
    told = end_of([*VIM, "-c", "syntax on", "-S", str(script)])
    assert told[2] == 0, told
    shown = out.read_text().split("--\n")
    return {name: [[GROUPS.get(it) for it in line.split(" ")] if line else [] for line in text.split("\n")[:-1]]
            for name, text in zip(files, shown)}


class Grammar:
    """A TextMate grammar, of the rules that ours have: `match` with `captures`, and `include` of the repository. Its patterns
    mean the same to Python as to an editor."""

    def __init__(self, name):
        with open(os.path.join(EDITORS, "textmate", name), encoding="utf-8") as file:
            self.grammar = json.load(file)
        known = {"match", "name", "captures", "include"}
        self.unread = [rule for rules in self.all_rules() for rule in rules if set(rule) - known]

    def all_rules(self):
        return [self.grammar["patterns"], *(it["patterns"] for it in self.grammar.get("repository", {}).values())]

    def show(self, rules, line, begin, end, columns):
        """Shows a part of a line by the rules: at each place that which matches first, and of those the first rule."""
        while begin < end:
            found = [(match.start(), at, match, rule) for at, rule in enumerate(self.resolved(rules))
                     if (match := re.compile(rule["match"]).search(line, begin, end))]
            if not found:
                return
            _, _, match, rule = min(found, key=lambda it: it[:2])
            self.paint(rule.get("name"), match.span(), columns)
            for group, capture in rule.get("captures", {}).items():
                span = match.span(int(group))
                self.paint(capture.get("name"), span, columns)
                self.show(capture.get("patterns", []), line, *span, columns)
            begin = max(match.end(), begin + 1)

    def resolved(self, rules):
        inner = self.grammar.get("repository", {})
        return [it for rule in rules for it in (inner[rule["include"][1:]]["patterns"] if "include" in rule else [rule])]

    @staticmethod
    def paint(name, span, columns):
        if name:
            columns[slice(*span)] = [SCOPES[name.rpartition(".")[0]]] * (span[1] - span[0])

    def columns(self, line):
        columns = [None] * len(line)
        self.show(self.grammar["patterns"], line, 0, len(line), columns)
        return columns


def compared(tally, name, line, got, want):
    """One check for each line; between words anything is fine but an error, and vim shows the line there."""
    got = got if "error" in got else [it if is_word is not None else None for it, is_word in zip(got, want)]
    tally.is_same(f"{name}: {line[:60]}", got[:COLUMNS], want[:COLUMNS])


def lines_of(text):
    return text.removesuffix("\n").split("\n") if text else []


def test_vim(tally, program, tmp_path):
    """vim, over all sets and scripts, and some lines more that are none."""
    for kind, ending, forms in (("lynxset", ".set", FORMS), ("lynxscript", ".script", EVENTS)):
        files = texts(ending)
        shown = by_vim(kind, files, tmp_path)
        for name, text in files.items():
            lines = lines_of(text)
            checks = Tally()
            for line, got in zip(lines, shown[name]):
                compared(checks, name, line, got, wanted(line, forms))
            tally.is_same(name, (checks.failed, checks.passed), (0, len(lines)))
    asked = [word for ending in ("set", "script")
             for word in ("-c", f"edit examples/payment.{ending}", "-c", "verbose set filetype?")]
    found = end_of([*VIM, *asked, "-c", "qall!"], cwd=TOP)
    tally.is_same("kinds of files", re.findall(r"filetype=(\w+)", found[0] + found[1]), ["lynxset", "lynxscript"])
    tally.is_same("a judged set is shown without an error", judged_with_errors(program), [])


def judged_with_errors(program):
    """Sets that the program judges, and that have a line of no form: there are none."""
    bad = [name for name, text in texts(".set").items() if any("error" in wanted(line, FORMS) for line in lines_of(text))]
    return [name for name in bad if end_of([program, "check", os.path.join(TOP, name)])[2] in (0, 1)]


def test_textmate(tally):
    """The TextMate grammars, over all sets and scripts, and what names them to an editor."""
    for file, ending, forms in (("lynx-set.tmLanguage.json", ".set", FORMS), ("lynx-script.tmLanguage.json", ".script", EVENTS)):
        grammar = Grammar(file)
        tally.is_same(f"{file}: rules that this test can't read", grammar.unread, [])
        for name, text in texts(ending).items():
            checks = Tally()
            for line in lines_of(text):
                compared(checks, name, line, grammar.columns(line), wanted(line, forms))
            tally.is_same(name, checks.failed, 0)
    with open(os.path.join(EDITORS, "textmate", "package.json"), encoding="utf-8") as page:
        package = json.load(page)
    for it in package["contributes"]["grammars"]:
        tally.is_same(it["path"], Grammar(it["path"]).grammar["scopeName"], it["scopeName"])
    tally.is_same("languages", {it["language"] for it in package["contributes"]["grammars"]},
                  {it["id"] for it in package["contributes"]["languages"]})


def test_no_forms(tally, tmp_path):
    """Lines that fit no form, by both."""
    lines = ["lynx 3", "Servers 2", "servers  2", "table A", "table a b", "shard 0 1", "program", "program p a b c d e f g h i",
             "range n 1...2", "range n 1..", "hop x", "end ", "get x", "get 1 t k", "set t k", "add t k v w", "let x 1 * 2",
             "need x == 1", "need x < ", "# no comment", "max t 1"]
    (tmp_path / "lines.set").write_text("".join(f"{it}\n" for it in lines))
    grammar = Grammar("lynx-set.tmLanguage.json")
    shown = by_vim("lynxset", [str(tmp_path / "lines.set")], tmp_path)[str(tmp_path / "lines.set")]
    for line, got in zip(lines, shown):
        tally.is_same(f"vim: {line}", set(got), {"error"})
        tally.is_same(f"TextMate: {line}", set(grammar.columns(line)), {"error"})
