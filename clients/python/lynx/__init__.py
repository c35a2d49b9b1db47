"""A client of a Lynx service, on Python's standard library alone.

    import lynx

    bank = lynx.Client('stores')              # the service over the stores of this folder, and the set that it serves
    paid = bank.begin('pay', 30)              # Begun(chain=Chain(0, 1), stamp=2, results=[100], again=False, number=1)
    paid.named['x']                           # 100: results by the names that the set gives them
    done = bank.look(paid.chain, 1, wait=5)   # Found(stamp=3, results=[]), or None after five seconds
    paid.wait(5)                              # the results of all its hops, once the last is done: [[100], []]
    bank.read('acct', 1000)                   # 30: what a cell holds, of a service that tells its status
    bank.shut()                               # the service checks all that it told, and ends

A request is known by its client's id and its number: whatever is asked under the same id and number is done once, and
a begin that was lost on its way is asked again under its number by itself. A client of your own keeps both where it
keeps what it asks for (`Client(.., client=7)`, `bank.begin('pay', 30, number=12)`): after a restart it asks again under
the old number and gets the recorded answer, with `again` true. A client with an id of its own doesn't count by itself,
since each process would count from 1 again: give each begin its number, or `first=` the first that is free.

The folder may be a link to that of the books that are served now. A begin whose answer was lost in books that are closed
(`lynx carry`) isn't asked again in the next ones, which have no record of it: it is BooksClosed.

`lynx.Client(7000, 'payment.set')` asks at a port by a set of its own. A request tells a program by its number, so that
set is to be the service's, or one that it extends: `lynx.Client(7000, 'payment.set', status=7001)` looks whether it is.

A client belongs to one thread at a time. docs/FORMATS.md has the bytes.
"""
from __future__ import annotations

import http.client
import json
import os
import secrets
import socket
import stat
import struct
import time
from dataclasses import dataclass, field, replace
from types import TracebackType
from typing import Any, Callable, Dict, Iterator, List, NamedTuple, Optional, Tuple, Type, TypeVar, Union
from urllib.parse import quote

__version__ = '0.1.0'

__all__ = ['Begun', 'BooksClosed', 'Busy', 'ByeLost', 'Chain', 'Clash', 'Client', 'Found', 'Full', 'Lost', 'LynxError',
           'NoService', 'NoStatus', 'OtherSet', 'Outside', 'Program', 'Recorded', 'Refused', 'Stopped', 'Wanting', 'Wrong',
           'extends', 'programs_of', 'served_set', 'service_of']

T = TypeVar('T')
MAX_WORD = 2 ** 64 - 1
MAX_BODY_BYTES = 2048
REQUEST, LOOK, QUIT, SHUT, ANSWER, LOOKED, BYE = 0x01, 0x02, 0x03, 0x04, 0x11, 0x12, 0x13


class LynxError(Exception):
    """Why a request was not done. `reason` is the word of docs/FORMATS.md, and `number` the request's, where it had
    one: what is asked again is asked under it."""

    reason: str = 'error'
    number: Optional[int] = None

    def __init__(self, text: Optional[str] = None) -> None:
        super().__init__(text or self.reason)


class Clash(LynxError):
    """This client used this number for another request."""
    reason = 'clash'


class Wrong(LynxError):
    """The request doesn't fit its program, or there is no such program: nothing was done. `reason` says why. Of a read it
    is the service's sentence: there is no such table, say."""

    def __init__(self, reason: str) -> None:
        self.reason = reason
        super().__init__(reason)


class Outside(Wrong):
    """An argument isn't in its parameter's range."""

    def __init__(self) -> None:
        super().__init__('outside-range')


class Full(LynxError):
    """The server has all the entries that it may have."""
    reason = 'full'


class Busy(LynxError):
    """A chain begun at this server has still to return there. Ask again later, under any number."""
    reason = 'busy'


class Stopped(LynxError):
    """The server's store failed: it answers nothing until the service is started again."""
    reason = 'stopped'


class Wanting(LynxError):
    """The service had no memory for it. Nothing was done."""
    reason = 'memory'


class Lost(LynxError):
    """The connection was lost as often as was tried. Whether the request was done isn't known: ask again under its
    number, which is `number`."""
    reason = 'lost'

    def __init__(self, text: Optional[str] = None, number: Optional[int] = None) -> None:
        self.number = number
        super().__init__(text)


class ByeLost(LynxError):
    """The end was asked for, and the service's bye was lost. It ends, unless what was asked didn't come there: then it
    still listens."""
    reason = 'bye lost'


@dataclass(frozen=True)
class Chain:
    """A chain's name: its origin, and its index among the chains that began there. `books` is the number of the books that
    have it, as far as that is known: others may have another chain of this name. Names are compared without it."""
    origin: int
    index: int
    books: Optional[int] = field(default=None, compare=False, repr=False)

    def __str__(self) -> str:
        return f'{self.origin}:{self.index}'

    @staticmethod
    def parse(text: str) -> Chain:
        """The chain of a text like `0:7`."""
        origin, colon, index = text.partition(':')
        if not (colon and origin.isascii() and index.isascii() and origin.isdigit() and index.isdigit()):
            raise ValueError(f'not a chain: {text!r}')
        return Chain(int(origin), int(index))


class BooksClosed(LynxError):
    """The books numbered `old` were closed before the answer came, and the folder leads to those numbered `new`, which have
    no record of it. `client` and `number` are the request's; of a look for a `chain` there may be no number. It was done or
    not: `lynx find` in the old folder tells. This client never asks for it in other books: what wasn't done is begun under
    a new number."""
    reason = 'books-closed'

    def __init__(self, old: int, new: int, client: int, number: Optional[int] = None, chain: Optional[Chain] = None) -> None:
        self.old, self.new, self.client, self.number, self.chain = old, new, client, number, chain
        what = f'the look for chain {chain}' if number is None else f'request {number} of client {client}'
        super().__init__(f'the books were closed before the answer to {what} came: `lynx find` in the old folder tells what '
                         'became of it')


@dataclass(frozen=True)
class Begun:
    """The chain began, and its first hop gave these results, `named` by what the set calls them. `again`: it had begun
    before, by this very request."""
    chain: Chain
    stamp: int
    results: List[int] = field(hash=False)
    again: bool
    number: int
    named: Dict[str, int] = field(default_factory=dict, hash=False, compare=False, repr=False)
    client: Optional[Client] = field(default=None, hash=False, compare=False, repr=False)
    hops: int = field(default=1, hash=False, compare=False, repr=False)

    def wait(self, wait: float = 10.0) -> Optional[List[List[int]]]:
        """The results of all its hops, hop 0 first, once the last is done; None where it isn't within `wait` seconds."""
        until = time.monotonic() + wait
        results = [self.results]
        for hop in range(1, self.hops):
            if self.client is None:
                raise ValueError('a begin of no client')
            try:
                found = self.client.look(self.chain, hop, max(0.0, until - time.monotonic()))
            except BooksClosed as fault:
                raise BooksClosed(fault.old, fault.new, fault.client, self.number, self.chain) from None
            if found is None:
                return None
            results.append(found.results)
        return results


@dataclass(frozen=True)
class Refused:
    """The first hop refused: this `need` of it, counted from 0, wasn't met; `text` is how the set has it. It counts as
    an answer, not as a fault."""
    need: int
    stamp: int
    again: bool
    number: int
    text: str = field(default='', compare=False)


@dataclass(frozen=True)
class Found:
    """The hop is done, with these results."""
    stamp: int
    results: List[int] = field(hash=False)


@dataclass(frozen=True)
class Recorded:
    """What a server recorded of a request: its program and arguments, and the `chain` that it began with the `results` of
    its first hop; or, where that refused, the `need` that wasn't met, counted from 0."""
    server: int
    stamp: int
    program: str
    args: List[int] = field(hash=False)
    chain: Optional[Chain] = None
    results: List[int] = field(default_factory=list, hash=False)
    need: Optional[int] = None


@dataclass(frozen=True)
class Program:
    """A program of a set: its number, its parameters, how many hops it has, and of its first hop the names of its
    results and the needs."""
    number: int
    parameters: Tuple[str, ...]
    hops: int
    names: Tuple[str, ...] = ()
    needs: Tuple[str, ...] = ()


def _program_of(number: int, words: List[List[str]]) -> Program:
    """The program of the words of its lines, but for the one that ends it."""
    at = [place for place, line in enumerate(words) if line[0] == 'hop'] + [len(words)]
    first = words[at[0]:at[1]] if len(at) > 1 else []
    names = tuple(line[1] for line in first if line[0] in ('get', 'let') and len(line) > 1)
    needs = tuple(' '.join(line) for line in first if line[0] == 'need')
    return Program(number, tuple(words[0][2:]), len(at) - 1, names, needs)


def programs_of(text: str) -> Dict[str, Program]:
    """The programs of a set's text, by name. The text is not judged: the service has judged its own."""
    programs: Dict[str, Program] = {}
    lines: List[List[str]] = []
    for line in text.split('\n'):
        words = line.split(' ')
        if words[0] == 'program' and len(words) > 1:
            lines = [words]
        elif words == ['end'] and lines:
            programs[lines[0][1]] = _program_of(len(programs), lines)
            lines = []
        elif lines:
            lines.append(words)
    return programs


class NoService(LynxError, ConnectionError):
    """Nothing in the folder tells of a service: none runs over its stores, or it is about to begin or to end."""
    reason = 'no-service'


class OtherSet(LynxError):
    """The service serves a set that doesn't extend the client's: the same numbers would ask for other programs."""
    reason = 'other-set'


class NoStatus(LynxError):
    """The service tells no status, by which cells and requests are read: it is served without `--status`, or the client
    was given a port and no `status`."""
    reason = 'no-status'

    def __init__(self) -> None:
        super().__init__('the service tells no status: serve with --status')


def service_of(folder: Union[str, os.PathLike[str]]) -> Tuple[int, str]:
    """The port of the service over the stores of the folder, and the text of the set that it serves."""
    notice = _notice_of(folder)
    return notice.port, notice.text


def _port_of(address: str) -> Optional[int]:
    """The port of an address of this machine, None where there is none."""
    host, _, port = address.partition(':')
    return int(port) if host == '127.0.0.1' and port.isascii() and port.isdigit() else None


class _Notice(NamedTuple):
    """What a folder tells of its service: its port, that of its status or None, the text of its set, and the number of the
    books. `folder` is the real one, which a link led to."""
    folder: str
    port: int
    status: Optional[int]
    text: str
    books: int


def _ascii_of(path: str) -> Optional[str]:
    """The text of a file, None where there is none. A pipe, say, or bytes that aren't ASCII are none: a pipe isn't opened,
    since that would wait for a writer."""
    try:
        if not stat.S_ISREG(os.stat(path).st_mode):
            return None
        with open(path, encoding='ascii', newline='') as file:
            return file.read()
    except (FileNotFoundError, NotADirectoryError, UnicodeDecodeError):
        return None


def _books_of(folder: str) -> Optional[int]:
    """The number of the books of a folder: 1 where it has no file of them, and None where that tells no number."""
    path = os.path.join(folder, 'books')
    if not os.path.lexists(path):
        return 1
    word, _, digits = (_ascii_of(path) or '').partition('\n')[0].partition(' ')
    number = int(digits) if word == 'books' and digits.isdigit() and len(digits) <= 20 else 0
    return number if 1 <= number <= MAX_WORD else None


def _is_carried(folder: str) -> bool:
    """Whether the books of a folder are closed. It has no service any more: another may have the port of its notice."""
    return os.path.lexists(os.path.join(folder, 'carried'))


def _notice_of(folder: Union[str, os.PathLike[str]]) -> _Notice:
    """What the folder tells of its service. A link is resolved once, so that all is of the same books."""
    real = os.path.realpath(os.fspath(folder))
    head, line, text = (_ascii_of(os.path.join(real, 'service')) or '').partition('--\n')
    found = dict(each.split(' ', 1) for each in head.splitlines() if ' ' in each)
    port, books = _port_of(found.get('listening', '')), _books_of(real)
    if not line or port is None or books is None or _is_carried(real):
        raise NoService(f'no service: {folder}')
    return _Notice(real, port, _port_of(found.get('status', '')), text, books)


def served_set(status: int, host: str = '127.0.0.1', timeout: float = 30.0) -> str:
    """The text of the set of the service that tells its status at this port. An OSError where none does."""
    asked = http.client.HTTPConnection(host, status, timeout=timeout)
    try:
        return _set_told(asked)
    finally:
        asked.close()


def _answer_at(asked: http.client.HTTPConnection, path: str) -> Tuple[int, str]:
    """The status and the text that a service answers at a path of its status port. An OSError where none does."""
    try:
        asked.request('GET', path)
        answer = asked.getresponse()
        return answer.status, answer.read().decode('ascii')
    except (http.client.HTTPException, UnicodeDecodeError) as fault:
        raise ConnectionError(f'no status: {asked.host}:{asked.port}') from fault


def _set_told(asked: http.client.HTTPConnection) -> str:
    """The text of the set of the service. An OSError where none tells it."""
    status, text = _answer_at(asked, '/set')
    if status != 200:
        raise ConnectionError(f'no status: {asked.host}:{asked.port}')
    return text


def _told(asked: http.client.HTTPConnection, path: str, read: Callable[[Any], T]) -> T:
    """What is read of the JSON at a path. What can't be told is a LynxError with the service's sentence."""
    status, text = _answer_at(asked, path)
    sentence = text.rstrip('\n')
    if status == 503:
        raise Stopped(sentence) if sentence == 'server stopped' else Wanting(sentence)
    if status in (400, 404):
        raise Wrong(sentence)
    if status != 200:
        raise ConnectionError(f'no status: {asked.host}:{asked.port}')
    try:
        return read(json.loads(text))
    except (KeyError, TypeError, ValueError) as fault:
        raise ConnectionError('what came is no answer') from fault


def _numbers_of(texts: List[str]) -> List[int]:
    return [int(text) for text in texts]


def _recorded_of(found: Dict[str, Any], books: Optional[int]) -> Recorded:
    head = int(found['server']), int(found['stamp']), str(found['program']), _numbers_of(found['args'])
    if 'refused' in found:
        return Recorded(*head, need=int(found['refused']))
    return Recorded(*head, replace(Chain.parse(str(found['chain'])), books=books), _numbers_of(found['results']))


def _parts_of(text: str) -> Tuple[List[int], List[List[str]], List[List[str]]]:
    """The version and the count of servers of a set's text, and the lines of each of its tables and programs."""
    parts: List[List[str]] = []
    head: List[str] = []
    for line in text.splitlines():
        if line.startswith(('table ', 'program ')):
            parts.append([line])
        else:
            (parts[-1] if parts else head).append(line)
    numbers = [int(line.split(' ')[1]) for line in head]
    tables = [part for part in parts if part[0].startswith('table ')]
    return numbers, tables, [part for part in parts if part[0].startswith('program ')]


def extends(new: str, old: str) -> bool:
    """Whether the set of the text `new` has all that the one of `old` has, under the same numbers. Neither is judged."""
    (numbers, tables, programs), (was, old_tables, old_programs) = _parts_of(new), _parts_of(old)
    return (all(one >= other for one, other in zip(numbers, was)) and tables[:len(old_tables)] == old_tables
            and programs[:len(old_programs)] == old_programs)


class _Body:
    """The body of an item, read from left to right."""

    def __init__(self, data: bytes) -> None:
        self.data, self.at = data, 0

    def take(self, form: str) -> Any:
        size = struct.calcsize(form)
        if self.at + size > len(self.data):
            raise ConnectionError('an answer is cut short')
        values = struct.unpack_from(form, self.data, self.at)
        self.at += size
        return values[0] if len(values) == 1 else values

    def values(self) -> List[int]:
        return [self.take('>Q') for _ in range(self.take('>B'))]

    def end(self) -> None:
        if self.at != len(self.data):
            raise ConnectionError('an answer is too long')


def _word(value: object, what: str) -> int:
    if isinstance(value, bool) or not isinstance(value, int) or not 0 <= value <= MAX_WORD:
        raise ValueError(f'{what} is no whole number from 0 to 2^64 - 1: {value!r}')
    return value


_WRONG = {2: 'unknown-program', 3: 'wrong-origin', 4: 'arg-count', 5: 'wrong-shard'}
_FAULTS: Dict[int, Type[LynxError]] = {1: Clash, 6: Full, 7: Busy, 9: Stopped, 10: Wanting, 11: Outside}
_UNDONE = (Clash, Wrong, Full, Busy)  # answers by which nothing was done, and nothing is recorded of it


class Client:
    """A client of the service over the stores of the folder `where`, by the set that it serves; or, where that is a
    number, of the service at that port, by the set whose text is the file `set_path`, or the text `set_text`.

    `client` is its id, drawn at random where none is given, and `first` the first number that it gives a request by
    itself: 1 where the id was drawn. One with an id of its own and no `first` gives none by itself. A connection that
    is lost is made again, at most `tries` times for a request, with growing pauses; each wait for the service ends after
    `timeout` seconds. A service that is started again over a folder may have another port, and a set that extends the one
    before; one of another set is OtherSet. At a port the sets are compared where `status` is given, the port at which
    the service tells its status (`lynx serve .. --status PORT`).

    `books` is the number of the books that the folder led to when it was read last, and None at a port. Each time that it
    connects, it follows the link `where` anew. Begins that weren't sent, reads and finds go on in the next books. A begin
    whose answer isn't known, and a look for a chain of the books before, is BooksClosed, also when it is asked once more.
    """

    def __init__(self, where: Union[int, str, os.PathLike[str]], set_path: Union[None, str, os.PathLike[str]] = None, *,
                 set_text: Optional[str] = None, status: Optional[int] = None, client: Optional[int] = None,
                 first: Optional[int] = None, host: str = '127.0.0.1', timeout: float = 30.0, tries: int = 5) -> None:
        self.folder = None if isinstance(where, int) else os.fspath(where)
        self.books: Optional[int] = None
        if isinstance(where, int):
            port = where
        else:
            if set_path is not None or set_text is not None or status is not None:
                raise TypeError('the set of a folder is that of its service')
            notice = _notice_of(where)
            port, set_text, self.books = notice.port, notice.text, notice.books
        if set_text is None and set_path is not None:
            with open(set_path, encoding='ascii') as file:
                set_text = file.read()
        self.set_text = set_text or ''
        self.programs = programs_of(set_text or '')
        self.numbered = {program.number: program for program in self.programs.values()}
        self.owed: Dict[Chain, int] = {}  # the last hop of each chain that it began, until it has seen that hop
        self.closed: Dict[Chain, int] = {}  # the books of each chain that was owed when they were closed
        self.unsettled: Optional[BooksClosed] = None  # what `settle` tells of one of these
        self.unknown: Dict[int, int] = {}  # the books in which it sent a request first, by its number: it lost the answer
        self.client = secrets.randbits(64) if client is None else _word(client, 'the client')
        self.counts = client is None or first is not None
        self.next_number = _word(1 if first is None else first, 'the first number')
        self.address, self.status = (host, port), status
        self.timeout, self.tries = timeout, max(1, tries)
        self.socket: Optional[socket.socket] = None
        self.reader: Optional[http.client.HTTPConnection] = None  # at the port of the status
        self.read_books: Optional[int] = None  # those of the reader

    def __enter__(self) -> Client:
        return self

    def __exit__(self, _kind: Optional[Type[BaseException]], _fault: Optional[BaseException],
                 _trace: Optional[TracebackType]) -> None:
        self.close()

    def begin(self, program: Union[str, int], *args: int, number: Optional[int] = None,
              books: Optional[int] = None) -> Union[Begun, Refused]:
        """Begins a chain of the program, by its name (or its number in the set), and gives Begun or Refused; other
        answers are exceptions. Without a `number` it draws the next one of its own; a client with an id of its own and
        no `first` has none, and raises TypeError. `books` are those in which an earlier process asked under the number:
        it is asked in no others, but is BooksClosed there."""
        under = self._next() if number is None else number
        if books is not None:
            self.unknown.setdefault(under, books)
        kind = program if isinstance(program, int) and not isinstance(program, bool) else self._number_of(program, args)
        if not 0 <= kind <= 63 or len(args) > 8:
            raise Wrong('unknown-program' if len(args) <= 8 else 'arg-count')
        body = struct.pack('>QQBB', self.client, _word(under, 'the number'), kind, len(args))
        body += b''.join(struct.pack('>Q', _word(arg, 'an argument')) for arg in args)
        try:
            answer = self._tried(lambda: self._begun_once(body, under, kind), self._drop)
        except LynxError as fault:
            fault.number = under
            raise
        except OSError as fault:
            self._drop()
            raise Lost(str(fault), under) from fault
        if isinstance(answer, Begun):
            self.closed.pop(answer.chain, None)
            if answer.hops > 1:
                self.owed[answer.chain] = answer.hops - 1
        return answer

    def _begun_once(self, body: bytes, number: int, kind: int) -> Union[Begun, Refused]:
        """Asks for a begin, unless it was sent in books that are closed. Where its answer isn't known, it notes in which."""
        self._ready(self.unknown.get(number), number)
        try:
            answer = self._answer_of(self._exchange(REQUEST, body, ANSWER), number, kind)
        except _UNDONE:
            raise
        except BaseException:
            if self.books is not None:
                self.unknown.setdefault(number, self.books)
            raise
        self.unknown.pop(number, None)
        return answer

    def _next(self) -> int:
        """The next number of its own."""
        if not self.counts:
            raise TypeError(f'client {self.client} has no number to count from: give each begin its number=, or the client '
                            'first=. From 1 each process would count again, and get the answers of the one before')
        number = self.next_number
        self.next_number += 1
        return number

    def look(self, chain: Union[Chain, str], hop: int, wait: float = 0.0) -> Optional[Found]:
        """What that hop of the chain did: Found, or None where it isn't done yet, also not within `wait` seconds. A chain
        whose books aren't known, as one that a text names, is one of the books that the client had last."""
        named = Chain.parse(chain) if isinstance(chain, str) else chain
        books = self._books_with(named)
        if not 0 <= named.origin <= 15 or not 0 <= hop <= 255:
            return None
        body = struct.pack('>BQB', named.origin, _word(named.index, 'the index'), hop)
        until, pause = time.monotonic() + wait, 0.001
        while True:
            try:
                found = self._tried(lambda: self._looked_once(body, books, named), self._drop)
            except LynxError:
                raise
            except OSError as fault:
                raise Lost(str(fault)) from fault
            if found is not None:
                if self.owed.get(named) == hop:
                    del self.owed[named]
                return found
            left = until - time.monotonic()
            if left <= 0:
                return None
            time.sleep(min(pause, left))
            pause = min(pause * 2, 0.1)

    def _books_with(self, chain: Chain) -> Optional[int]:
        """The number of the books that have the chain."""
        if chain.books is not None:
            return chain.books
        return self.closed.get(chain, self.books)

    def _looked_once(self, body: bytes, books: Optional[int], chain: Chain) -> Optional[Found]:
        """Looks for a hop, unless its chain is of books that are closed."""
        self._ready(books, chain=chain)
        return self._found_of(self._exchange(LOOK, body, LOOKED))

    def wait_for(self, begun: Begun, program: str, wait: float = 10.0) -> Optional[List[List[int]]]:
        """The results of all hops of a chain that began, hop 0 first, once its last is done; None where it isn't within
        `wait` seconds."""
        return replace(begun, client=self, hops=self.programs[program].hops).wait(wait)

    def settle(self, wait: float = 10.0) -> bool:
        """Whether all chains that this client began are done, within `wait` seconds. Of chains that were owed when their
        books were closed it is BooksClosed, once."""
        until = time.monotonic() + wait
        try:
            if self.unsettled is not None:
                raise self.unsettled
            return all(self.look(chain, hop, max(0.0, until - time.monotonic())) is not None
                       for chain, hop in list(self.owed.items()))
        except BooksClosed:
            self.unsettled = None
            raise

    def read(self, table: str, key: int) -> int:
        """What a cell of the table holds, 0 where nothing was put: at its server, at one moment, after whole steps. Nothing
        is recorded of it. To read at several servers at once, or in the order, begin a program that reads."""
        return self._looked_up(f'/cells/{quote(table, "")}/{_word(key, "the key")}', lambda found: int(found['value']))

    def read_range(self, table: str, low: int = 0, high: int = MAX_WORD, *, limit: int = 1000) -> Iterator[Tuple[int, int]]:
        """The cells of the table from key `low` to key `high` that aren't 0, by their keys: pairs of a key and a value. They
        are asked for as they are taken, a page of at most `limit` cells (10000 at most) at a time. Each page is of one
        moment at one server, and a later page of a later one: together they are of no one moment."""
        start: Optional[int] = _word(low, 'the first key')
        end, most = _word(high, 'the last key'), _word(limit, 'the limit')
        while start is not None:
            cells, start = self._page(f'/cells/{quote(table, "")}?from={start}&to={end}&limit={most}', start, end)
            yield from cells

    def _page(self, path: str, start: int, end: int) -> Tuple[List[Tuple[int, int]], Optional[int]]:
        """The cells of a page, and from which key to go on, or None."""
        def page_of(found: Any) -> Tuple[List[Tuple[int, int]], Optional[int]]:
            cells = [(int(cell['key']), int(cell['value'])) for cell in found['cells']]
            after = int(found['next']) if 'next' in found else None
            if after is not None and not start < after <= end:
                raise ValueError(after)
            return cells, after

        return self._looked_up(path, page_of)

    def find(self, client: int, number: int) -> List[Recorded]:
        """What became of the request of that client under that number: what each server recorded of it, by server. There is
        one record of a number that was used once, and none of a request that wasn't done, or was lost on its way. Books
        have no record of what was done in the books before."""
        def records_of(found: Any) -> List[Recorded]:
            return [_recorded_of(each, self.read_books) for each in found['records']]

        try:
            return self._looked_up(f'/requests/{_word(client, "the client")}/{_word(number, "the number")}', records_of)
        except Wrong as fault:
            if fault.reason == 'no such request':
                return []
            raise

    def close(self) -> None:
        """Leaves. A request begins a new connection."""
        self._hang_up()
        if self.socket is not None:
            try:
                self._exchange(QUIT, b'', BYE)
            except OSError:
                pass
            self._drop()

    def shut(self) -> None:
        """Has the service end: it takes no more clients, checks all that it told, and says whether it stood. Raises
        NoService where the folder tells of none, Lost where it couldn't be asked, and ByeLost where it was and its bye
        didn't come."""
        try:
            self._sent(SHUT)
            self._answer(BYE).end()
        except LynxError:
            raise
        except OSError as fault:
            raise ByeLost(f'bye lost: {fault}') from fault
        finally:
            self._drop()
            self._hang_up()

    def _sent(self, tag: int) -> None:
        """Sends an item without a body, over a new connection where the old one takes nothing."""
        for attempt in range(self.tries):
            try:
                self._ready()
                self._send(tag, b'')
                return
            except OSError as fault:
                self._drop()
                if attempt + 1 == self.tries:
                    if isinstance(fault, LynxError):
                        raise
                    raise Lost(str(fault)) from fault
                time.sleep(min(0.02 * 2 ** min(attempt + 1, 6), 1.0))

    def _number_of(self, name: Union[str, int], args: Tuple[int, ...]) -> int:
        program = self.programs.get(name) if isinstance(name, str) else None
        if program is None:
            raise Wrong('unknown-program')
        if len(args) != len(program.parameters):
            raise Wrong('arg-count')
        return program.number

    def _answer_of(self, body: _Body, number: int, kind: int) -> Union[Begun, Refused]:
        program = self.numbered.get(kind, Program(kind, (), 1))
        answer = body.take('>B')
        if answer == 0:
            origin, index, stamp, again = body.take('>BQQB')
            results = body.values()
            body.end()
            named = dict(zip(program.names, results))
            return Begun(Chain(origin, index, self.books), stamp, results, bool(again), number, named, self, program.hops)
        if answer == 8:
            need, stamp, again = body.take('>BQB')
            body.end()
            text = program.needs[need] if need < len(program.needs) else ''
            return Refused(need, stamp, bool(again), number, text)
        body.end()
        if answer in _WRONG:
            raise Wrong(_WRONG[answer])
        raise _FAULTS.get(answer, LynxError)()

    @staticmethod
    def _found_of(body: _Body) -> Optional[Found]:
        found = Found(body.take('>Q'), body.values()) if body.take('>B') else None
        body.end()
        return found

    def _tried(self, work: Callable[[], T], drop: Callable[[], None]) -> T:
        """What the work gives, which is done again where the connection or the service is gone: the same request is never
        done twice."""
        for attempt in range(self.tries):
            if attempt:
                time.sleep(min(0.02 * 2 ** min(attempt, 6), 1.0))
            try:
                return work()
            except OSError:
                drop()
                if attempt + 1 == self.tries:
                    raise
        raise ConnectionError('not tried')

    def _looked_up(self, path: str, read: Callable[[Any], T]) -> T:
        """What is read of what the service tells at a path of its status port."""
        try:
            return self._tried(lambda: self._looked_up_once(path, read), self._hang_up)
        except LynxError:
            raise
        except OSError as fault:
            raise Lost(str(fault)) from fault

    def _looked_up_once(self, path: str, read: Callable[[Any], T]) -> T:
        """The same over the connection that is kept, and over a new one where the service hung up on that."""
        if self.reader is not None:
            try:
                return _told(self.reader, path, read)
            except OSError:
                self._hang_up()
        self.reader = self._opened()
        return _told(self.reader, path, read)

    def _opened(self) -> http.client.HTTPConnection:
        """A connection to where the service tells its status. Its set is this client's, or goes on from it."""
        notice = None if self.folder is None else _notice_of(self.folder)
        status = self.status if notice is None else notice.status
        if status is None:
            raise NoStatus()
        asked = http.client.HTTPConnection(self.address[0], status, timeout=self.timeout)
        asked.connect()
        asked.auto_open = 0  # it never goes on over another connection by itself
        try:
            self._check(notice)
            self._compare(_set_told(asked))
        except (LynxError, OSError):
            asked.close()
            raise
        self.read_books = None if notice is None else notice.books
        return asked

    def _exchange(self, tag: int, body: bytes, wanted: int) -> _Body:
        try:
            self._send(tag, body)
            return self._answer(wanted)
        except BaseException:
            self._drop()  # an answer that comes later, as behind an interrupt, is that of no other request
            raise

    def _find(self) -> Optional[_Notice]:
        """Looks again where the service over the folder listens, and where its set is told: a kill leaves what the folder
        tells, and another service may have its ports by now. The folder may lead to the next books."""
        if self.folder is None:
            return None
        notice = _notice_of(self.folder)
        self.address, self.status = (self.address[0], notice.port), notice.status
        if self.books is not None and self.books != notice.books and self.owed:
            self.closed.update(dict.fromkeys(self.owed, self.books))
            self.unsettled = BooksClosed(self.books, notice.books, self.client, chain=next(iter(self.owed)))
            self.owed.clear()
        self.books = notice.books
        return notice

    def _check(self, notice: Optional[_Notice]) -> None:
        """It is connected to a service of the books of the notice, since these weren't closed before."""
        if notice is not None and _is_carried(notice.folder):
            raise NoService(f'no service: {self.folder}')

    def _in_books(self, books: Optional[int], number: Optional[int], chain: Optional[Chain]) -> None:
        """What was asked in these books is asked in no others."""
        if books is not None and self.books is not None and books != self.books:
            raise BooksClosed(books, self.books, self.client, number, chain)

    def _compare(self, text: str) -> None:
        """The set that is served is this client's, or goes on from it."""
        try:
            is_own = text == self.set_text or extends(text, self.set_text)
        except (IndexError, ValueError):  # no set: another program has the port
            is_own = False
        if not is_own:
            raise OtherSet()

    def _ready(self, books: Optional[int] = None, number: Optional[int] = None, chain: Optional[Chain] = None) -> None:
        """Connects, where it isn't connected any more, to ask what can be asked in these books alone, or in any. What is
        sent over a connection that the service ended may have been done, so it is looked at first."""
        if self.socket is not None and self._is_hung_up(self.socket):
            self._drop()
        notice = self._find() if self.socket is None else None
        self._in_books(books, number, chain)
        if self.socket is None:
            self._connect(notice)

    def _connect(self, notice: Optional[_Notice]) -> None:
        if self.status is not None:
            self._compare(served_set(self.status, self.address[0], self.timeout))
        elif notice is not None:
            self._compare(notice.text)
        stream = socket.create_connection(self.address, self.timeout)
        try:
            stream.setsockopt(socket.IPPROTO_TCP, socket.TCP_NODELAY, 1)
            self._check(notice)
        except BaseException:
            stream.close()
            raise
        self.socket = stream

    def _is_hung_up(self, stream: socket.socket) -> bool:
        """Whether the connection ended, or something came that wasn't asked for."""
        stream.settimeout(0.0)
        try:
            stream.recv(1, socket.MSG_PEEK)
        except BlockingIOError:
            return False
        except OSError:
            return True
        finally:
            stream.settimeout(self.timeout)
        return True

    def _send(self, tag: int, body: bytes) -> None:
        if self.socket is None:
            raise ConnectionError('not connected')
        self.socket.sendall(struct.pack('>BI', tag, len(body)) + body)

    def _answer(self, wanted: int) -> _Body:
        found, length = struct.unpack('>BI', self._read(5))
        if found != wanted or length > MAX_BODY_BYTES:
            raise ConnectionError('what came is no answer')
        return _Body(self._read(length))

    def _read(self, count: int) -> bytes:
        data = b''
        while len(data) < count:
            piece = self.socket.recv(count - len(data)) if self.socket is not None else b''
            if not piece:
                raise ConnectionError('the service closed the connection')
            data += piece
        return data

    def _drop(self) -> None:
        if self.socket is not None:
            self.socket.close()
            self.socket = None

    def _hang_up(self) -> None:
        if self.reader is not None:
            self.reader.close()
            self.reader = None
