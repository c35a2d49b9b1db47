# What tests/test_languages.py asks of clients/python about what is read: lines in, a line out for each.
#
#     driver.py folder FOLDER CLIENT TRIES TIMEOUT
#     driver.py port PORT SET CLIENT TRIES TIMEOUT         and driver.py status PORT STATUS SET ..
import os
import sys

sys.path.insert(0, os.path.join(os.path.dirname(os.path.abspath(__file__)), "..", "..", "clients", "python"))
import lynx  # noqa: E402


def told(values):
    """What stands for a list."""
    return " ".join(str(value) for value in values) or "-"


def stated(value):
    return "-" if value is None else value


class Driver:
    """A client, and the last thing that it began or was told."""

    def __init__(self, way, where, *words):
        client, tries, timeout = map(int, words[-3:])
        options = {"client": client, "first": 1, "tries": tries, "timeout": timeout}
        if way != "folder":
            options.update(set_path=words[-4], status=int(words[0]) if way == "status" else None)
        self.bank, self.begun, self.fault = lynx.Client(where if way == "folder" else int(where), **options), None, None
        self.chain = None

    def begin(self, number, program, *args):
        under, _, books = number.partition("@")
        self.begun = it = self.bank.begin(program, *map(int, args), number=None if under == "-" else int(under),
                                          books=int(books) if books else None)
        if isinstance(it, lynx.Refused):
            return f"refused {it.need} stamp {it.stamp} again {str(it.again).lower()} number {it.number}: {it.text}"
        named = told(f"{name}={value}" for name, value in it.named.items())
        return (f"begun {it.chain} stamp {it.stamp} results {told(it.results)} again {str(it.again).lower()} "
                f"number {it.number} named {named}")

    def wait(self, seconds):
        results = self.begun.wait(float(seconds))
        return "absent" if results is None else "all " + " | ".join(map(told, results))

    def look(self, chain, hop, seconds):
        found = self.bank.look(self.chain if chain == "found" else chain, int(hop), float(seconds))
        return f"found stamp {found.stamp} results {told(found.results)}" if found else "absent"

    def settle(self, seconds):
        return "settled" if self.bank.settle(float(seconds)) else "absent"

    def read(self, table, key):
        return str(self.bank.read(table, int(key)))

    def range(self, table, low, high, limit):
        return told(f"{key}={value}" for key, value in self.bank.read_range(table, int(low), int(high), limit=int(limit)))

    def find(self, client, number):
        records = self.bank.find(int(client), int(number))
        self.chain = records[0].chain if records else None
        return " | ".join(
            f"server {it.server} stamp {it.stamp} program {it.program} args {told(it.args)} chain {stated(it.chain)} "
            f"results {told(it.results)} need {stated(it.need)}" for it in records) or "-"

    def why(self):
        return str(self.fault)

    def books(self):
        return str(stated(self.bank.books))

    def closed(self):
        it = self.fault
        return f"old {it.old} new {it.new} client {it.client} number {stated(it.number)} chain {stated(it.chain)}"

    def close(self):
        self.bank.close()
        return "closed"

    def shut(self):
        self.bank.shut()
        return "shut"

    def answer(self, line):
        verb, *words = line.split(" ")
        try:
            return getattr(self, verb)(*words)
        except lynx.LynxError as fault:
            self.fault = fault
            return f"fault {type(fault).__name__} {fault.reason} {stated(fault.number)}"


if __name__ == "__main__":
    try:
        driver = Driver(*sys.argv[1:])
    except lynx.LynxError as fault:
        print(f"fault {type(fault).__name__} {fault.reason} -", flush=True)
        sys.exit()
    print("opened", flush=True)
    for asked in sys.stdin:
        print(driver.answer(asked.rstrip("\n")), flush=True)
