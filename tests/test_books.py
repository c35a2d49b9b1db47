"""Clients that go by a link to the books that are served now, while these are closed and the link leads to the next ones: what
was sent, and not answered, is asked in no other books. The services are played here in Python, each with what it was asked; one
test goes over a `lynx serve`. Books are closed by hand: by the files that `lynx carry` leaves."""
import os
import socket
import struct
import threading
import time

import pytest
from serving import PAYMENT, Room, WatchedService, free_port
from test_languages import TURNED, Driver, Go, begun, made, page, path_asked, reader, recorded  # noqa: F401

BUSY, MEMORY, STOPPED = b"\x07", b"\x0a", b"\x09"

# A client in Go looks only at a connection that was idle for half a second whether the service ended it.
IDLE = 0.6


class Played:
    """A service. It begins what it is asked, with 0:0 as its first chain (or 1:0, where `origin` is 1), and each hop is done at once.
    `asked` are the numbers of the begins that came. A begin for which `losing` has a call is begun, and goes unanswered: the call is
    made, and the connection ends. One for which `instead` has bytes is answered by these, and isn't begun."""

    def __init__(self, port=0, origin=0):
        self.origin, self.asked, self.looks, self.records, self.losing, self.instead = origin, [], [], [], {}, {}
        self.streams = []
        self.listener = socket.create_server(("127.0.0.1", port))
        self.port = self.listener.getsockname()[1]
        threading.Thread(target=self.run, daemon=True).start()

    def __enter__(self):
        return self

    def __exit__(self, *_):
        self.end()

    def run(self):
        while True:
            try:
                stream = self.listener.accept()[0]
            except OSError:
                return
            self.streams.append(stream)
            threading.Thread(target=self.serve, args=(stream,), daemon=True).start()

    def serve(self, stream):
        with stream:
            try:
                while answer := self.answer(stream):
                    stream.sendall(answer)
            except OSError:
                pass

    def answer(self, stream):
        """What is sent for the next item, nothing where the connection ends."""
        head = stream.recv(5, socket.MSG_WAITALL)
        if len(head) < 5:
            return b""
        body = stream.recv(struct.unpack(">I", head[1:])[0], socket.MSG_WAITALL)
        if head[0] == 1:
            return self.begin(body)
        if head[0] == 2:
            index = struct.unpack(">BQB", body)[1]
            self.looks.append(index)
            return b"\x12" + (struct.pack(">IBQB", 10, 1, 2 * index + 2, 0) if index < len(self.records) else b"\0\0\0\1\0")
        return bytes.fromhex("1300000000")

    def begin(self, body):
        number = struct.unpack(">QQ", body[:16])[1]
        self.asked.append(number)
        if number in self.instead:
            return b"\x11\0\0\0\x01" + self.instead.pop(number)
        again = body in self.records
        if not again:
            self.records.append(body)
        if number in self.losing:
            self.losing.pop(number)()
            return b""
        index, results = self.records.index(body), (100,) * body[16]
        form = f">BBQQBB{len(results)}Q"
        return b"\x11" + struct.pack(">I" + form[1:], struct.calcsize(form), 0, self.origin, index, 2 * index + 1, again, len(results),
                                     *results)

    def end(self):
        """It ends, and so do its connections."""
        for it in (self.listener, *self.streams):
            try:
                it.shutdown(socket.SHUT_RDWR)
            except OSError:
                pass
            it.close()


class Folders:
    """Folders of books in a room, and the link `current` to the one that is served."""

    def __init__(self, room):
        self.room, self.current = room, os.path.join(room.path, "current")

    def open(self, name, books=None):
        """A folder of the books of this number, with no file of it where that is left out; and its path."""
        path = os.path.join(self.room.path, name)
        os.mkdir(path)
        if books is not None:
            self.write(name, "books", books if isinstance(books, str) else f"books {books}\n")
        return path

    def write(self, name, file, text):
        self.room.file(os.path.join(name, file), text)

    def serve(self, name, service, status="", text=PAYMENT):
        """The notice of a service."""
        self.write(name, "service", f"listening 127.0.0.1:{service.port}\n{status}--\n{text}")

    def lead(self, name):
        """The link leads to this folder from now on."""
        os.symlink(name, self.current + ".new")
        os.rename(self.current + ".new", self.current)

    def close(self, name, to, notice=False):
        """The books of a folder are closed. Its service was killed, where its notice is still there."""
        if not notice:
            os.remove(os.path.join(self.room.path, name, "service"))
        self.write(name, "carried", f"books 2\nto {to}\n")


class Carried:
    """Two folders, each with a service: the link leads to the first until `turn`."""

    def __init__(self, room, new_books=2, old_books=None):
        self.folders, self.old, self.new = Folders(room), Played(), Played()
        self.folders.open("one", old_books)
        self.folders.open("two", new_books)
        self.folders.serve("one", self.old)
        self.folders.lead("one")

    def __enter__(self):
        return self

    def __exit__(self, *_):
        self.old.end()
        self.new.end()

    def turn(self):
        """The service of the first ends, and the second is served."""
        self.old.end()
        self.folders.close("one", "two")
        self.folders.serve("two", self.new)
        self.folders.lead("two")

    def driver(self, language, tries=60):
        return Driver(language, "folder", self.folders.current, 7, tries, 10)


def closed(number, old=1, new=2, chain="-"):
    return f"old {old} new {new} client 7 number {number} chain {chain}"


SENTENCE = "the books were closed before the answer to {} came: `lynx find` in the old folder tells what became of it"


def fault(number):
    return f"fault BooksClosed books-closed {number}"


@pytest.mark.parametrize("old, new, told", [(None, 2, "2"), (7, 12, "12"), (2 ** 64 - 2, f"books {2 ** 64 - 1}", str(2 ** 64 - 1)),
                                            (3, "books 4\nfrom one\n", "4"), (2, None, "1")])
def test_lost_answer(tally, reader, old, new, told):  # noqa: F811
    """A begin was sent, and its books were closed: it isn't asked in the next ones, and what comes after it is."""
    with Room(PAYMENT) as room, Carried(room, new, old) as books, books.driver(reader) as bank:
        numbers = closed(2, old or 1, told)
        tally.is_same("before", bank.ask("books", "begin - seed 100"), [str(old or 1), begun("0:0", 1, "-", 1)])
        books.old.losing[2] = books.turn
        tally.is_same("closed", bank.ask("begin - pay 30", "closed", "books"), [fault(2), numbers, told])
        tally.holds("what to do", bank.ask("why")[0].endswith(SENTENCE.format("request 2 of client 7")))
        tally.is_same("it was asked once", (books.old.asked, books.new.asked), ([1, 2], []))
        tally.is_same("asked for again", bank.ask("begin 2 pay 30", "closed", "begin 2 pay 31"), [fault(2), numbers, fault(2)])
        tally.is_same("the next begins", bank.ask("begin - seed 50", "begin 2 pay 30", "begin - pay 30", "wait 5"),
                      [begun("0:0", 1, "-", 3), fault(2), begun("0:1", 3, "100", 4, "x=100"), "all 100 | -"])
        tally.is_same("what the next books were asked", books.new.asked, [3, 4])


def test_earlier_process(tally, reader):  # noqa: F811
    """A process that stored in which books it asked, and was stopped: the next one asks in no others."""
    with Room(PAYMENT) as room, Carried(room) as books, books.driver(reader) as bank:
        books.turn()
        tally.is_same("in other books", bank.ask("begin 5@1 seed 100", "closed"), [fault(5), closed(5)])
        tally.is_same("in these", bank.ask("begin 6@2 seed 100"), [begun("0:0", 1, "-", 6)])
        tally.is_same("what was asked", (books.old.asked, books.new.asked), ([], [6]))


def test_no_books(tally, made):  # noqa: F811
    """A process in Go stored 0, which is what a client at a port has for its books: that says nothing of where it asked. An
    answer that is lost over the change of books is that of the old ones all the same."""
    with Room(PAYMENT) as room, Carried(room) as books, books.driver(made(Go)) as bank:
        bank.ask("begin - seed 100")
        books.old.losing[5] = books.turn
        tally.is_same("the answer is lost", bank.ask("begin 5@0 pay 30", "closed"), [fault(5), closed(5)])
        tally.is_same("what was asked", (books.old.asked, books.new.asked), ([1, 5], []))


def test_lost_in_vain(tally, reader):  # noqa: F811
    """The answer is lost, and no service is there as often as is tried: the number is still that of the old books later."""
    with Room(PAYMENT) as room, Carried(room) as books, books.driver(reader, tries=2) as bank:
        def ends():
            books.old.end()
            os.remove(os.path.join(room.path, "one", "service"))

        books.old.losing[1] = ends
        tally.is_same("no service", bank.ask("begin - seed 100"), ["fault NoService no-service 1"])
        books.folders.write("one", "carried", "books 2\nto two\n")
        tally.is_same("closed, and none yet", bank.ask("begin 1 seed 100"), ["fault NoService no-service 1"])
        books.folders.lead("two")
        tally.is_same("the next, and none yet", bank.ask("begin 1 seed 100"), ["fault NoService no-service 1"])
        books.folders.serve("two", books.new)
        tally.is_same("the next", bank.ask("begin 1 seed 100", "closed", "begin - seed 1"), [fault(1), closed(1), begun("0:0", 1, "-", 2)])
        tally.is_same("what it was asked", books.new.asked, [2])


def test_same_books(tally, reader):  # noqa: F811
    """The same books, served again or from another folder: what was lost is asked again, and answered."""
    with Room(PAYMENT) as room, Carried(room, new_books=1) as books, books.driver(reader) as bank:
        def again():
            books.old.end()
            books.new.records = books.old.records
            books.folders.serve("one", books.new)

        def elsewhere():
            books.new.losing.clear()
            books.folders.serve("two", books.new)
            books.folders.lead("two")

        books.old.losing[2] = again
        tally.is_same("again", bank.ask("begin - seed 100", "begin - pay 30", "wait 5"),
                      [begun("0:0", 1, "-", 1), begun("0:1", 3, "100", 2, "x=100", "true"), "all 100 | -"])
        tally.is_same("it was asked twice", (books.old.asked, books.new.asked), ([1, 2], [2]))
        books.new.losing[3] = elsewhere
        tally.is_same("elsewhere", bank.ask("begin - pay 30", "wait 5", "look 0:0 0 0", "settle 5", "begin - pay 1"),
                      [begun("0:2", 5, "100", 3, "x=100", "true"), "all 100 | -", "found stamp 2 results -", "settled",
                       begun("0:3", 7, "100", 4, "x=100")])
        tally.is_same("twice again", books.new.asked, [2, 3, 3, 4])


def test_never_sent(tally, reader):  # noqa: F811
    """Begins that weren't sent go to the next books: nobody listened, no service was told, or the connection had ended before."""
    with Room(PAYMENT) as room, Carried(room) as books, books.driver(reader) as bank:
        books.old.end()
        bank.tell("begin - seed 100")
        time.sleep(0.3)
        books.turn()
        tally.is_same("nobody listened", bank.told(), begun("0:0", 1, "-", 1))
    with Room(PAYMENT) as room, Carried(room) as books, books.driver(reader) as bank:
        os.rename(os.path.join(room.path, "one", "service"), os.path.join(room.path, "one", "kept"))
        bank.tell("begin - seed 100")
        time.sleep(0.3)
        os.rename(os.path.join(room.path, "one", "kept"), os.path.join(room.path, "one", "service"))
        books.turn()
        tally.is_same("no service was told", bank.told(), begun("0:0", 1, "-", 1))
    with Room(PAYMENT) as room, Carried(room) as books, books.driver(reader, tries=1) as bank:
        tally.is_same("before", bank.ask("begin - seed 100"), [begun("0:0", 1, "-", 1)])
        time.sleep(IDLE)
        books.turn()
        tally.is_same("the connection had ended", bank.ask("begin - seed 50", "books"), [begun("0:0", 1, "-", 2), "2"])
        tally.is_same("each was asked once", (books.old.asked, books.new.asked), ([1], [2]))


def test_known_answers(tally, reader):  # noqa: F811
    """A begin that was answered: what wasn't done may be asked in the next books, and what may have been done may not."""
    with Room(PAYMENT) as room, Carried(room) as books, books.driver(reader) as bank:
        books.old.instead.update({2: BUSY, 3: STOPPED, 4: MEMORY, 5: STOPPED})
        tally.is_same("before", bank.ask("begin - seed 100", "begin - pay 30", "begin - pay 30", "begin - pay 30", "begin - seed 5", "begin 5 seed 5"),
                      [begun("0:0", 1, "-", 1), "fault Busy busy 2", "fault Stopped stopped 3", "fault Wanting memory 4",
                       "fault Stopped stopped 5", begun("0:1", 3, "-", 5)])
        time.sleep(IDLE)
        books.turn()
        tally.is_same("behind", bank.ask("begin 2 pay 30", "begin 3 pay 30", "begin 4 pay 30", "begin 5 seed 5", "begin 1 seed 100"),
                      [begun("0:0", 1, "100", 2, "x=100"), fault(3), fault(4), begun("0:1", 3, "-", 5), begun("0:2", 5, "-", 1)])
        tally.is_same("what the next books were asked", books.new.asked, [2, 5, 1])


def test_busy_after_lost(tally, reader):  # noqa: F811
    """An answer was lost, and the next one says that nothing was done: the first may still have been on its way."""
    with Room(PAYMENT) as room, Carried(room) as books, books.driver(reader) as bank:
        books.old.losing[1] = lambda: books.old.instead.update({1: BUSY})
        tally.is_same("busy", bank.ask("begin - seed 100"), ["fault Busy busy 1"])
        time.sleep(IDLE)
        books.turn()
        tally.is_same("closed", (bank.ask("begin 1 seed 100"), books.new.asked), ([fault(1)], []))


def test_looks(tally, reader):  # noqa: F811
    """A chain of the old books isn't looked for in the next ones, where another has its name; chains that begin there are."""
    with Room(PAYMENT) as room, Carried(room) as books, books.driver(reader) as bank:
        tally.is_same("before", bank.ask("begin - pay 30", "look 0:0 1 0", "begin - pay 30"),
                      [begun("0:0", 1, "100", 1, "x=100"), "found stamp 2 results -", begun("0:1", 3, "100", 2, "x=100")])
        time.sleep(IDLE)
        books.turn()
        books.new.records += [b"another's"] * 2
        tally.is_same("a wait", bank.ask("wait 5", "closed"), [fault(2), closed(2, chain="0:1")])
        tally.holds("what to do", bank.ask("why")[0].endswith(SENTENCE.format("request 2 of client 7")))
        tally.is_same("again", bank.ask("wait 5", "look 0:1 1 5", "closed"), [fault(2), fault("-"), closed("-", chain="0:1")])
        tally.holds("what to do of a look", bank.ask("why")[0].endswith(SENTENCE.format("the look for chain 0:1")))
        tally.is_same("nothing was looked for", books.new.looks, [])
        tally.is_same("settle tells it once", bank.ask("settle 5", "closed", "settle 5"), [fault("-"), closed("-", chain="0:1"), "settled"])
        tally.is_same("another's", bank.ask("look 0:0 0 0"), ["found stamp 2 results -"])
        tally.is_same("its own", bank.ask("begin - pay 30", "wait 5", "look 0:2 1 0", "settle 5", "look 0:1 1 0"),
                      [begun("0:2", 5, "100", 3, "x=100"), "all 100 | -", "found stamp 6 results -", "settled", fault("-")])
        tally.is_same("what was looked for", books.new.looks, [0, 2, 2])
    with Room(PAYMENT) as room, Carried(room) as books, books.driver(reader) as bank:
        tally.is_same("one more", bank.ask("begin - pay 30"), [begun("0:0", 1, "100", 1, "x=100")])
        time.sleep(IDLE)
        books.turn()
        tally.is_same("settle finds it", bank.ask("settle 5", "settle 5"), [fault("-"), "settled"])
        tally.is_same("the same name", bank.ask("look 0:0 1 0", "begin - pay 30", "look 0:0 1 0", "settle 5"),
                      [fault("-"), begun("0:0", 1, "100", 2, "x=100"), "found stamp 2 results -", "settled"])


def test_look_on_its_way(tally, reader):  # noqa: F811
    """A look that waits while the books are closed, for a chain that nobody knows: it ends."""
    with Room(PAYMENT) as room, Carried(room) as books, books.driver(reader) as bank:
        bank.ask("begin - seed 100")
        bank.tell("look 0:9 0 20")
        time.sleep(0.5)
        books.turn()
        tally.is_same("closed", (bank.told(), bank.ask("closed"), books.new.looks), (fault("-"), [closed("-", chain="0:9")], []))
        tally.is_same("and in the next books", bank.ask("look 0:9 0 0"), ["absent"])


def test_port_of_the_old(tally, reader):  # noqa: F811
    """A killed service's notice stays in closed books, and the service of the next ones has its port: nothing is asked before the
    link leads to these, and then nothing that was sent before."""
    with Room(PAYMENT) as room, Carried(room) as books:
        with books.driver(reader, tries=2) as bank:
            books.old.losing[1] = books.old.end
            tally.is_same("lost", bank.ask("begin - seed 100"), ["fault Lost lost 1"])
            books.folders.close("one", "two", notice=True)
            with Played(books.old.port) as service:
                books.folders.serve("two", service)
                tally.is_same("closed", bank.ask("begin 1 seed 100", "begin - seed 1", "look 0:0 0 0")[:2],
                              [f"fault NoService no-service {number}" for number in (1, 2)])
                with books.driver(reader) as other:
                    tally.is_same("opened while it is closed", other.first, "fault NoService no-service -")
                tally.is_same("nothing is asked", (service.asked, service.looks), ([], []))
                books.folders.lead("two")
                tally.is_same("the next", bank.ask("begin 1 seed 100", "begin 2 seed 1"), [fault(1), begun("0:0", 1, "-", 2)])


@pytest.mark.parametrize("text", ["", "books\n", "books \n", "books x\n", "book 2\n", "Books 2\n", "books 2 \n", "books -1\n", " books 2\n",
                                  "books 2\r\n", "books \u0662\n", "books 0\n", "books 18446744073709551616\n", "pipe",
                                  "folder"])
def test_strange_books(tally, reader, text):  # noqa: F811
    """Files of books that tell no number: no service is there for clients."""
    with Room(PAYMENT) as room, Carried(room) as books:
        path = os.path.join(room.path, "one", "books")
        if text in ("pipe", "folder"):
            {"pipe": os.mkfifo, "folder": os.mkdir}[text](path)
        else:
            books.folders.write("one", "books", text)
        with books.driver(reader) as bank:
            tally.is_same(f"books {text!r}", bank.first, "fault NoService no-service -")


def test_one_folder(tally, reader):  # noqa: F811
    """While the link is changed again and again, the notice and the number of the books are of one folder."""
    with Room(PAYMENT) as room, Played(origin=0) as one, Played(origin=1) as two:
        folders = Folders(room)
        for name, books, service in (("one", 1, one), ("two", 2, two)):
            folders.open(name, books)
            folders.serve(name, service)
        folders.lead("one")
        done = threading.Event()

        def change():
            while not done.is_set():
                for name in ("two", "one"):
                    folders.lead(name)

        changing = threading.Thread(target=change)
        changing.start()
        try:
            with Driver(reader, "folder", folders.current, 7, 60, 10) as bank:
                told = [bank.ask("begin - seed 1", "books", "close")[:2] for _ in range(300)]
        finally:
            done.set()
            changing.join()
        tally.is_same("chains of other books", [(first, books) for first, books in told if first[:8] != f"begun {int(books) - 1}:"], [])
        tally.holds("both were met", len({books for _, books in told}) == 2)


def test_port(tally, reader):  # noqa: F811
    """A client at a port has no books: what was lost is asked again, whoever has the port by then."""
    with Room(PAYMENT) as room, Played() as service:
        with Driver(reader, "port", service.port, room.set, 7, 60, 10) as bank:
            service.losing[1] = lambda: None
            tally.is_same("again", bank.ask("begin - seed 100", "look 0:0 0 0"), [begun("0:0", 1, "-", 1, again="true"), "found stamp 2 results -"])
            tally.is_same("no books", bank.ask("books"), ["0" if reader.name == "Go" else "-"])


def test_served(tally, reader, program):  # noqa: F811
    """Over services of the program: reads and finds go on at the next books, and looks for what was found there do."""
    with Room(PAYMENT) as room:
        folders = Folders(room)
        folders.open("two", 2)
        os.symlink("stores", folders.current)
        with Driver(reader, "folder", folders.current, 7, 5, 10) as bank:
            tally.is_same("no service", bank.first, "fault NoService no-service -")
        with WatchedService(program, room) as service, Driver(reader, "folder", folders.current, 7, 60, 10) as bank:
            tally.is_same("before", bank.ask("begin - seed 100", "begin - pay 30", "wait 5", "read acct 0", "find 7 1",
                                             "look found 0 0"),
                          [begun("0:0", 1, "-", 1), begun("0:1", 2, "100", 2, "x=100"), "all 100 | -", "70",
                           recorded(0, 1, "seed", 100, "0:0"), "found stamp 1 results -"])
            time.sleep(IDLE)
            service.kill()
            folders.write("stores", "carried", "books 2\nto two\n")
            bank.tell("read acct 0")
            room.stores = os.path.join(room.path, "two")
            with WatchedService(program, room) as other:
                folders.lead("two")
                tally.is_same("it reads on", bank.told(), "0")
                tally.is_same("it begins on", bank.ask("begin - seed 5", "look 0:0 0 0", "read acct 0"),
                              [begun("0:0", 1, "-", 3), "found stamp 1 results -", "5"])
                tally.is_same("what was found before", bank.ask("look found 0 0", "closed"), [fault("-"), closed("-", chain="0:0")])
                tally.is_same("it finds on", bank.ask("find 7 1", "find 7 3", "look found 0 0", "look 0:1 0 0", "wait 5", "shut"),
                              ["-", recorded(0, 1, "seed", 5, "0:0"), "found stamp 1 results -", "absent", "all -", "shut"])
                tally.is_same("the end", other.end(), ("closed\norder 0:0\n", "", 0))


def test_other_set(tally, reader):  # noqa: F811
    """The next books are of a set that doesn't extend the client's: what was lost is told as closed, and the rest as of another set."""
    with Room(PAYMENT) as room, Carried(room) as books, books.driver(reader) as bank:
        def turn():
            books.turn()
            books.folders.serve("two", books.new, text=TURNED)

        books.old.losing[1] = turn
        tally.is_same("closed", bank.ask("begin - seed 100", "begin - seed 1", "begin 1 seed 100"),
                      [fault(1), "fault OtherSet other-set 2", fault(1)])
        tally.is_same("nothing is asked", books.new.asked, [])


def test_closed_meanwhile(tally, reader):  # noqa: F811
    """Books that are closed after their notice was read, and before the client connects: the next service, at the same port, isn't
    taken for that of the old books."""
    with Room(PAYMENT) as room, Carried(room) as books, socket.create_server(("127.0.0.1", 0)) as status, Played() as service:
        def tell():
            with status.accept()[0] as stream:
                path_asked(stream)
                books.old.end()
                books.folders.write("one", "carried", "books 2\nto two\n")
                later.append(Played(books.old.port))
                stream.sendall(page(PAYMENT))

        later = []
        telling = threading.Thread(target=tell)
        with books.driver(reader, tries=2) as bank:
            books.old.losing[1] = lambda: books.folders.serve("one", books.old, f"status 127.0.0.1:{status.getsockname()[1]}\n")
            telling.start()
            tally.is_same("no service", bank.ask("begin - seed 100"), ["fault NoService no-service 1"])
            telling.join()
            tally.is_same("nothing is asked", (books.old.asked, later[0].asked), ([1], []))
            books.folders.serve("two", service)
            books.folders.lead("two")
            tally.is_same("the next", bank.ask("begin 1 seed 100", "begin - seed 1"), [fault(1), begun("0:0", 1, "-", 2)])
            later[0].end()


def test_kept_port(tally, reader, program):  # noqa: F811
    """A service goes on at the port of the one before: what tells the books apart is the folder."""
    with Room(PAYMENT) as room:
        folders, port = Folders(room), free_port()
        folders.open("one")
        folders.open("two", 2)
        folders.lead("one")
        with Played(port) as service:
            folders.serve("one", service)
            with Driver(reader, "folder", folders.current, 7, 60, 10) as bank:
                def turn():
                    service.end()
                    folders.close("one", "two", notice=True)
                    bank.next = Played(port)
                    folders.serve("two", bank.next)
                    folders.lead("two")

                service.losing[1] = turn
                tally.is_same("closed", bank.ask("begin - seed 100", "begin - seed 100"), [fault(1), begun("0:0", 1, "-", 2)])
                tally.is_same("what was asked", bank.next.asked, [2])
                bank.next.end()
