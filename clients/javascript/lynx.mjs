/**
 * A client of a Lynx service, for Node 18 or later, without a package.
 *
 *     import { Client } from './lynx.mjs';
 *
 *     const bank = await Client.at('stores');           // the service over the stores of this folder, and its set
 *     const paid = await bank.begin('pay', 30);         // Begun {chain: 0:1, stamp: 2n, results: [100n], again: false, number: 1n}
 *     paid.named.x;                                     // 100n: results by the names that the set gives them
 *     await bank.look(paid.chain, 1, { wait: 5 });      // Found {stamp: 3n, results: []}, or null after five seconds
 *     await paid.wait(5);                               // the results of all its hops, or null: [[100n], []]
 *     await bank.read('acct', 1000);                    // 30n: what a cell holds, of a service that tells its status
 *     await bank.shut();                                // the service checks all that it told, and ends
 *
 * A request is known by its client's id and its number: whatever is asked under the same id and number is done once, and
 * a begin that was lost on its way is asked again under its number by itself. A client of your own keeps both where it
 * keeps what it asks for (`Client.at('stores', { client: 7n })`, `bank.begin('pay', 30, { number: 12n })`): after a
 * restart it asks again under the old number and gets the recorded answer, with `again` true. A client with an id of its
 * own doesn't count by itself, since each process would count from 1 again: give each begin its number, or the client
 * `first`, the first that is free.
 *
 * The folder may be a link to that of the books that are served now. A begin whose answer was lost in books that are
 * closed (`lynx carry`) isn't asked again in the next ones, which have no record of it: it is BooksClosed.
 *
 * `await Client.connect(7000, { setPath: 'payment.set' })` asks at a port by a set of its own. A request tells a program
 * by its number, so that set is to be the service's, or one that it extends.
 *
 * Clients, numbers, indexes, stamps, arguments and results are BigInts; a whole number below 2^53 may be given for one.
 * Waits are in seconds. Calls of one client may overlap: they are asked one after the other. docs/FORMATS.md has the bytes.
 */
import { randomBytes } from 'node:crypto';
import { lstat, readFile, realpath, stat } from 'node:fs/promises';
import { Agent, request } from 'node:http';
import { connect } from 'node:net';
import { join } from 'node:path';
import { setTimeout as pause } from 'node:timers/promises';

/** The version of Lynx that it belongs to. */
export const version = '0.1.0';

const MAX_WORD = 2n ** 64n - 1n;
const MAX_BODY_BYTES = 2048;
const REQUEST = 0x01, LOOK = 0x02, QUIT = 0x03, SHUT = 0x04, ANSWER = 0x11, LOOKED = 0x12, BYE = 0x13;

/** Why a request was not done. `reason` is the word of docs/FORMATS.md, and `number` the request's, where it had one:
 * what is asked again is asked under it. */
export class LynxError extends Error {
  constructor(reason, text = reason, options = undefined) {
    super(text, options);
    this.name = new.target.name;
    this.reason = reason;
    this.number = null;
  }
}

/** This client used this number for another request. */
export class Clash extends LynxError {
  constructor() { super('clash'); }
}

/** The request doesn't fit its program, or there is no such program: nothing was done. `reason` says why. Of a read it is
 * the service's sentence: there is no such table, say. */
export class Wrong extends LynxError {}

/** An argument isn't in its parameter's range. */
export class Outside extends Wrong {
  constructor() { super('outside-range'); }
}

/** The server has all the entries that it may have. */
export class Full extends LynxError {
  constructor() { super('full'); }
}

/** A chain begun at this server has still to return there. Ask again later, under any number. */
export class Busy extends LynxError {
  constructor() { super('busy'); }
}

/** The server's store failed: it answers nothing until the service is started again. */
export class Stopped extends LynxError {
  constructor() { super('stopped'); }
}

/** The service had no memory for it. Nothing was done. */
export class Wanting extends LynxError {
  constructor() { super('memory'); }
}

/** The connection was lost as often as was tried. Whether the request was done isn't known: ask again under its
 * number, which is `number`. */
export class Lost extends LynxError {
  constructor(cause) { super('lost', cause.message, { cause }); }
}

/** The end was asked for, and the service's bye was lost. It ends, unless what was asked didn't come there: then it still
 * listens. */
export class ByeLost extends LynxError {
  constructor(cause) { super('bye lost', `bye lost: ${cause.message}`, { cause }); }
}

/** Nothing in the folder tells of a service: none runs over its stores, or it is about to begin or to end. */
export class NoService extends LynxError {
  constructor(folder) { super('no-service', `no service: ${folder}`); }
}

/** The service serves a set that doesn't extend the client's: the same numbers would ask for other programs. */
export class OtherSet extends LynxError {
  constructor() { super('other-set'); }
}

/** The books numbered `old` were closed before the answer came, and the folder leads to those numbered `new`, which have no
 * record of it. `client` and `number` are the request's; of a look for a `chain` there may be no number. It was done or not:
 * `lynx find` in the old folder tells. This client never asks for it in other books: what wasn't done is begun under a new
 * number. */
export class BooksClosed extends LynxError {
  constructor(old, next, client, number = null, chain = null) {
    const what = number === null ? `the look for chain ${chain}` : `request ${number} of client ${client}`;
    super('books-closed', `the books were closed before the answer to ${what} came: \`lynx find\` in the old folder tells what `
      + 'became of it');
    Object.assign(this, { old, new: next, client, number, chain });
  }
}

/** The service tells no status, by which cells and requests are read: it is served without `--status`, or the client was
 * given a port and no `status`. */
export class NoStatus extends LynxError {
  constructor() { super('no-status', 'the service tells no status: serve with --status'); }
}

/** A connection that is lost, or on which something came that is no answer. */
class Broken extends Error {}

/** A chain's name: its origin, and its index among the chains that began there. `books` is the number of the books that have
 * it, or null where that isn't known: others may have another chain of this name. */
export class Chain {
  constructor(origin, index, books = null) {
    this.origin = origin;
    this.index = wordOf(index, 'the index');
    this.books = books === null ? null : wordOf(books, 'the books');
  }

  /** The chain of a text like `0:7`. */
  static parse(text) {
    const found = /^([0-9]+):([0-9]+)$/.exec(text);
    if (!found) throw new TypeError(`not a chain: ${text}`);
    return new Chain(Number(found[1]), BigInt(found[2]));
  }

  toString() {
    return `${this.origin}:${this.index}`;
  }
}

/** The chain began, and its first hop gave these results, `named` by what the set calls them. `again`: it had begun
 * before, by this very request. */
export class Begun {
  #client;
  #hops;

  constructor(chain, stamp, results, again, number, names = [], client = null, hops = 1) {
    Object.assign(this, { chain, stamp, results, again, number });
    this.named = Object.fromEntries(names.slice(0, results.length).map((name, place) => [name, results[place]]));
    this.#client = client;
    this.#hops = hops;
  }

  /** The results of all its hops, hop 0 first, once the last is done; null where it isn't within so many seconds. */
  async wait(seconds = 10) {
    const until = performance.now() + seconds * 1000;
    const results = [this.results];
    for (let hop = 1; hop < this.#hops; hop += 1) {
      const found = await this.#client.look(this.chain, hop, { wait: (until - performance.now()) / 1000 }).catch((fault) => {
        if (!(fault instanceof BooksClosed)) throw fault;
        throw new BooksClosed(fault.old, fault.new, fault.client, this.number, this.chain);
      });
      if (!found) return null;
      results.push(found.results);
    }
    return results;
  }
}

/** The first hop refused: this `need` of it, counted from 0, wasn't met; `text` is how the set has it. It counts as an
 * answer, not as a fault. */
export class Refused {
  constructor(need, stamp, again, number, text = '') {
    Object.assign(this, { need, stamp, again, number, text });
  }
}

/** The hop is done, with these results. */
export class Found {
  constructor(stamp, results) {
    Object.assign(this, { stamp, results });
  }
}

/** What a server recorded of a request: its program and arguments, and the `chain` that it began with the `results` of its
 * first hop; or, where that refused, the `need` that wasn't met, counted from 0. The others are null, or empty. */
export class Recorded {
  constructor(server, stamp, program, args, chain, results, need) {
    Object.assign(this, { server, stamp, program, args, chain, results, need });
  }
}

/** A program of the lines of its words, but for the one that ends it: its number, its parameters, how many hops it has,
 * and of its first hop the names of its results and the needs. */
function programOf(number, lines) {
  const heads = lines.flatMap(([word], place) => (word === 'hop' ? [place] : []));
  const first = lines.slice(heads[0], heads[1]);
  const names = first.filter(([word]) => word === 'get' || word === 'let').map((words) => words[1]);
  const needs = first.filter(([word]) => word === 'need').map((words) => words.join(' '));
  return { number, parameters: lines[0].slice(2), hops: heads.length, names, needs };
}

/** The programs of a set's text, a map by their names. The text is not judged: the service has judged its own. */
export function programsOf(text) {
  const programs = new Map();
  let lines = [];
  for (const line of text.split('\n')) {
    const words = line.split(' ');
    if (words[0] === 'program') {
      lines = [words];
    } else if (line === 'end' && lines.length) {
      programs.set(lines[0][1], programOf(programs.size, lines));
      lines = [];
    } else if (lines.length) {
      lines.push(words);
    }
  }
  return programs;
}

/** A connection to the port at which a service tells its status. While nobody reads, it doesn't keep the process from its
 * end. */
class Reader {
  #agent = new Agent({ keepAlive: true, maxSockets: 1 });
  #options;
  #socket = null;

  constructor(host, port, timeout) {
    this.#options = { host, port, agent: this.#agent, timeout: timeout * 1000 };
  }

  /** The status and the text that are answered at this path. It never goes on over another connection. */
  async #answerAt(path) {
    if (this.#socket && !this.#socket.writable) throw new Broken('the service closed the connection');
    const answer = await new Promise((done, fail) => {
      const asked = request({ ...this.#options, path }, (found) => {
        const pieces = [];
        const { socket, statusCode } = found;
        found.on('data', (piece) => pieces.push(piece));
        found.on('end', () => done({ socket, status: statusCode, text: Buffer.concat(pieces).toString('latin1') }));
        found.on('error', fail);
      });
      asked.on('timeout', () => asked.destroy(new Error('the service is silent')));
      asked.on('error', fail);
      asked.end();
    }).catch((fault) => { throw new Broken(`no status: ${fault.message}`, { cause: fault }); });
    this.#socket ??= answer.socket;
    if (answer.socket !== this.#socket) throw new Broken('the service closed the connection');
    return answer;
  }

  /** The text of the set of the service. */
  async set() {
    const { status, text } = await this.#answerAt('/set');
    if (status !== 200) throw new Broken('no status');
    return text;
  }

  /** What is read of the JSON at this path. What can't be told is a fault with the service's sentence. */
  async told(path, read) {
    const { status, text } = await this.#answerAt(path);
    if (status === 503) throw text === 'server stopped\n' ? new Stopped() : new Wanting();
    if (status === 400 || status === 404) throw new Wrong(text.trimEnd());
    if (status !== 200) throw new Broken('no status');
    try {
      return read(JSON.parse(text));
    } catch (fault) {
      throw new Broken('what came is no answer', { cause: fault });
    }
  }

  drop() {
    this.#agent.destroy();
  }
}

/** The text of the set of the service that tells its status at this port. */
export async function servedSet(status, host = '127.0.0.1', timeout = 30) {
  const reader = new Reader(host, status, timeout);
  try {
    return await reader.set();
  } finally {
    reader.drop();
  }
}

/** What the work gives, or null where a file isn't there. */
async function unlessAbsent(work) {
  try {
    return await work;
  } catch (fault) {
    if (fault.code === 'ENOENT' || fault.code === 'ENOTDIR') return null;
    throw fault;
  }
}

/** The text of a file, or null where there is none, or a pipe, say: that isn't opened, since it would wait for a writer. */
async function textOf(path) {
  const found = await unlessAbsent(stat(path));
  return found?.isFile() ? unlessAbsent(readFile(path, 'latin1')) : null;
}

/** The number of the books of a folder: 1n where it has no file of them, and null where that tells no number. */
async function booksOf(folder) {
  const path = join(folder, 'books');
  if (!await unlessAbsent(lstat(path))) return 1n;
  const number = BigInt(/^books ([0-9]{1,20})(?:\n|$)/.exec(await textOf(path) ?? '')?.[1] ?? 0);
  return number >= 1n && number <= MAX_WORD ? number : null;
}

/** Whether the books of a folder are closed. It has no service any more: another may have the port of its notice. */
async function isCarried(folder) {
  return Boolean(await unlessAbsent(lstat(join(folder, 'carried'))));
}

/** What a folder tells of its service, and the real folder, which a link led to. The link is resolved once, so that all is of
 * the same books. */
async function noticeOf(folder) {
  const real = await unlessAbsent(realpath(folder));
  const text = real === null ? null : await textOf(join(real, 'service'));
  if (text === null || /[^\0-\x7f]/.test(text)) throw new NoService(folder);
  const end = text.indexOf('--\n');
  const head = text.slice(0, Math.max(end, 0));
  const listening = /^listening 127\.0\.0\.1:([0-9]+)$/m.exec(head);
  const status = /^status 127\.0\.0\.1:([0-9]+)$/m.exec(head);
  const books = await booksOf(real);
  if (!listening || books === null || await isCarried(real)) throw new NoService(folder);
  return { real, port: Number(listening[1]), status: status && Number(status[1]), setText: text.slice(end + 3), books };
}

/** The port of the service over the stores of the folder, that of its status if it tells one, the text of the set that it
 * serves, and the number of the books. */
export async function serviceOf(folder) {
  const { port, status, setText, books } = await noticeOf(folder);
  return { port, status, setText, books };
}

/** The version and the count of servers of a set's text, and the text of each of its tables and programs. */
function partsOf(text) {
  const [head, ...parts] = text.split(/^(?=table |program )/m);
  return {
    numbers: (head.match(/.+/g) ?? []).map((line) => Number(line.split(' ')[1])),
    tables: parts.filter((part) => part.startsWith('table ')),
    programs: parts.filter((part) => part.startsWith('program ')),
  };
}

/** Whether the set of the text `next` has all that the one of `old` has, under the same numbers. Neither is judged. */
export function extendsSet(next, old) {
  const [has, had] = [partsOf(next), partsOf(old)];
  return had.numbers.every((number, place) => has.numbers[place] >= number)
    && had.tables.every((table, place) => has.tables[place] === table)
    && had.programs.every((program, place) => has.programs[place] === program);
}

/** A number of 64 bits. */
function wordOf(value, what) {
  const word = Number.isSafeInteger(value) ? BigInt(value) : value;
  if (typeof word !== 'bigint' || word < 0n || word > MAX_WORD) {
    throw new RangeError(`${what} is no whole number from 0 to 2^64 - 1, or no BigInt: ${String(value)}`);
  }
  return word;
}

/** Numbers of one byte, and BigInts in eight. */
function bytesOf(...values) {
  return Buffer.concat(values.map((value) => {
    if (typeof value === 'number') return Buffer.of(value);
    const eight = Buffer.alloc(8);
    eight.writeBigUInt64BE(value);
    return eight;
  }));
}

/** The body of an item, read from left to right. */
class Body {
  #data;
  #at = 0;

  constructor(data) {
    this.#data = data;
  }

  #take(count) {
    if (this.#at + count > this.#data.length) throw new Broken('an answer is cut short');
    this.#at += count;
    return this.#at - count;
  }

  byte() {
    return this.#data[this.#take(1)];
  }

  word() {
    return this.#data.readBigUInt64BE(this.#take(8));
  }

  words() {
    return Array.from({ length: this.byte() }, () => this.word());
  }

  end() {
    if (this.#at !== this.#data.length) throw new Broken('an answer is too long');
  }
}

/** A connection, read by counts of bytes. While nobody reads, it doesn't keep the process from its end. */
class Line {
  #socket;
  #data = Buffer.alloc(0);
  #wake = () => {};
  #timeout;
  lost = null;

  constructor(host, port, timeout) {
    this.#timeout = timeout * 1000;
    this.#socket = connect({ host, port, noDelay: true });
    this.#socket.on('timeout', () => this.#socket.destroy(new Error('the service is silent')));
    this.#socket.on('error', (fault) => this.#end(fault));
    for (const event of ['end', 'close']) this.#socket.on(event, () => this.#end(new Error('the service closed the connection')));
    this.#socket.on('connect', () => this.#wake());
    this.#socket.on('data', (piece) => {
      this.#data = Buffer.concat([this.#data, piece]);
      this.#wake();
    });
  }

  /** Waits until it is connected. */
  async open() {
    await this.#awake(() => this.#until(() => !this.#socket.connecting && !this.#socket.destroyed));
  }

  #end(cause) {
    this.lost ??= new Broken(cause.message, { cause });
    this.#wake();
  }

  async send(bytes) {
    await this.#awake(() => new Promise((done, fail) => {
      this.#socket.write(bytes, (fault) => (fault ? fail(this.lost ?? new Broken(fault.message)) : done()));
    }));
  }

  async read(count) {
    await this.#awake(() => this.#until(() => this.#data.length >= count));
    const found = this.#data.subarray(0, count);
    this.#data = this.#data.subarray(count);
    return found;
  }

  async #until(fact) {
    while (!fact()) {
      if (this.lost) throw this.lost;
      await new Promise((wake) => { this.#wake = wake; });
    }
  }

  async #awake(work) {
    this.#socket.ref().setTimeout(this.#timeout);
    try {
      return await work();
    } finally {
      this.#socket.unref().setTimeout(0);
    }
  }

  drop() {
    this.#socket.destroy();
  }
}

const WRONG = new Map([[2, 'unknown-program'], [3, 'wrong-origin'], [4, 'arg-count'], [5, 'wrong-shard']]);
const FAULTS = new Map([[1, Clash], [6, Full], [7, Busy], [9, Stopped], [10, Wanting], [11, Outside]]);

function faultOf(kind) {
  if (WRONG.has(kind)) return new Wrong(WRONG.get(kind));
  const Fault = FAULTS.get(kind);
  return Fault ? new Fault() : new LynxError('error');
}

/** Whether nothing was done by this answer, and nothing is recorded of it. */
function isUndone(fault) {
  return [Clash, Wrong, Full, Busy].some((kind) => fault instanceof kind);
}

/** The cells of a page from `start` to `end`, pairs of a key and a value, and from which key to go on, or null. */
function pageOf({ cells, next }, start, end) {
  const pairs = cells.map(({ key, value }) => [BigInt(key), BigInt(value)]);
  const after = next === undefined ? null : BigInt(next);
  if (after !== null && !(after > start && after <= end)) throw new RangeError(`not within the range: ${after}`);
  return [pairs, after];
}

function recordedOf({ server, stamp, program, args, chain, results, refused }, books) {
  const head = [Number(server), BigInt(stamp), program, args.map(BigInt)];
  if (refused !== undefined) return new Recorded(...head, null, [], Number(refused));
  const { origin, index } = Chain.parse(chain);
  return new Recorded(...head, new Chain(origin, index, books), results.map(BigInt), null);
}

/** How long to pause before a request is asked for the so manieth time again. */
function milliseconds(attempt) {
  return Math.min(20 * 2 ** Math.min(attempt, 6), 1000);
}

/**
 * A client of a service, made by `Client.at` or `Client.connect`. Of their options `client` is its id, drawn at random
 * where none is given, and `first` the first number that it gives a request by itself: 1 where the id was drawn. One with
 * an id of its own and no `first` gives none by itself. It connects with its first request. A connection that is lost is made again, at most `tries` times for a request, with growing pauses; each wait
 * for the service ends after `timeout` seconds. A service that is begun anew over a folder may have another port, and a
 * set that extends the one before; one of another set is OtherSet.
 *
 * `books` is the number of the books that the folder led to when it was read last, and null at a port. Each time that it
 * connects, it follows a link anew. Begins that weren't sent, reads and finds go on in the next books. A begin whose answer
 * isn't known, and a look for a chain of the books before, is BooksClosed, also when it is asked once more.
 */
export class Client {
  #folder;
  #host;
  #port;
  #status;
  #timeout;
  #line = null;
  #reader = null;
  #readBooks = null;
  #last = Promise.resolve();
  #byNumber;
  #counts;

  /** The books of each chain that was owed when they were closed, by its name, and what `settle` tells of one of these. */
  #closed = new Map();
  #unsettled = null;

  /** The books in which it sent a request first, by its number: it lost the answer. */
  #unknown = new Map();

  /** The chains that this client began and whose last hop it hasn't seen, by their names, with the number of that hop. */
  owed = new Map();

  /** A client of the service over the stores of a folder, by the set that it serves. */
  static async at(folder, options = {}) {
    return new Client({ ...options, ...await serviceOf(folder), folder });
  }

  /** A client of the service at a port, by the set of the file `setPath` or of the text `setText`; where `status` is given,
   * the port at which the service tells its status, the sets are compared. */
  static async connect(port, { setPath, setText, ...options } = {}) {
    return new Client({ ...options, port, setText: setText ?? (setPath ? await readFile(setPath, 'latin1') : '') });
  }

  constructor({ port, setText, status = null, folder = null, books = null, client, first, host = '127.0.0.1', timeout = 30,
    tries = 5 }) {
    this.#folder = folder;
    this.books = books;
    this.#host = host;
    this.#port = port;
    this.#status = status;
    this.#timeout = timeout;
    this.tries = Math.max(1, tries);
    this.client = wordOf(client ?? randomBytes(8).readBigUInt64BE(), 'the client');
    this.nextNumber = wordOf(first ?? 1n, 'the first number');
    this.#counts = (client ?? null) === null || (first ?? null) !== null;
    this.setText = setText;
    this.programs = programsOf(setText);
    this.#byNumber = [...this.programs.values()];
  }

  /** Begins a chain of the program, by its name (or its number in the set), and gives Begun or Refused; other answers are
   * thrown. The last argument may be `{ number, books }`; without a number it draws the next one of its own. A client with
   * an id of its own and no `first` has none, and throws a TypeError. `books` are those in which an earlier process asked
   * under the number: it is asked in no others, but is BooksClosed there. */
  async begin(program, ...args) {
    const options = (typeof args.at(-1) === 'object' ? args.pop() : null) ?? {};
    const number = wordOf(options.number ?? this.#next(), 'the number');
    if (options.books !== undefined && !this.#unknown.has(number)) this.#unknown.set(number, wordOf(options.books, 'the books'));
    const values = args.map((value) => wordOf(value, 'an argument'));
    try {
      const kind = this.#kindOf(program, values);
      const body = Buffer.concat([bytesOf(this.client, number, kind, values.length), bytesOf(...values)]);
      return await this.#alone(() => this.#tried(() => this.#begunOnce(body, number, kind)));
    } catch (fault) {
      if (fault instanceof LynxError) fault.number = number;
      throw fault;
    }
  }

  /** Asks for a begin, unless it was sent in books that are closed. Where its answer isn't known, it notes in which. */
  async #begunOnce(body, number, kind) {
    const books = this.#unknown.get(number) ?? null;
    await this.#ready(books, number);
    try {
      const answer = await this.#exchange(REQUEST, body, ANSWER, (found) => this.#answerOf(found, number, kind));
      this.#unknown.delete(number);
      if (answer instanceof Begun) this.#note(String(answer.chain), this.#programAt(kind).hops - 1);
      return answer;
    } catch (fault) {
      if (!isUndone(fault) && this.books !== null) this.#unknown.set(number, books ?? this.books);
      throw fault;
    }
  }

  #note(name, hop) {
    this.#closed.delete(name);
    if (hop > 0) this.owed.set(name, hop);
  }

  /** The next number of its own. */
  #next() {
    if (!this.#counts) {
      throw new TypeError(`client ${this.client} has no number to count from: give each begin its { number }, or the client `
        + '{ first }. From 1 each process would count again, and get the answers of the one before');
    }
    return this.nextNumber++;
  }

  /** What that hop of the chain did: Found, or null where it isn't done yet, also not within `wait` seconds. A chain whose
   * books aren't known, as one that a text names, is one of the books that the client had last. */
  async look(chain, hop, { wait = 0 } = {}) {
    const named = typeof chain === 'string' ? Chain.parse(chain) : chain;
    const { origin, index } = named;
    const name = `${origin}:${index}`;
    const books = named.books ?? this.#closed.get(name) ?? this.books;
    if (!(origin >= 0 && origin <= 15 && hop >= 0 && hop <= 255)) return null;
    const body = bytesOf(origin, wordOf(index, 'the index'), hop);
    const until = performance.now() + wait * 1000;
    for (let next = 1; ; next = Math.min(next * 2, 100)) {
      const found = await this.#alone(() => this.#tried(async () => {
        await this.#ready(books, null, named);
        return this.#exchange(LOOK, body, LOOKED, foundOf);
      }));
      if (found) {
        if (this.owed.get(name) === hop && books === this.books) this.owed.delete(name);
        return found;
      }
      const left = until - performance.now();
      if (left <= 0) return null;
      await pause(Math.min(next, left));
    }
  }

  /** Whether all chains that this client began are done, within so many seconds. Of chains that were owed when their books
   * were closed it is BooksClosed, once. */
  async settle(seconds = 10) {
    const until = performance.now() + seconds * 1000;
    try {
      if (this.#unsettled) throw this.#unsettled;
      for (const [chain, hop] of [...this.owed]) {
        if (!await this.look(chain, hop, { wait: (until - performance.now()) / 1000 })) return false;
      }
      return true;
    } catch (fault) {
      if (fault instanceof BooksClosed) this.#unsettled = null;
      throw fault;
    }
  }

  /** What a cell of the table holds, 0n where nothing was put: at its server, at one moment, after whole steps. Nothing is
   * recorded of it. To read at several servers at once, or in the order, begin a program that reads. */
  async read(table, key) {
    return this.#lookedUp(`/cells/${encodeURIComponent(table)}/${wordOf(key, 'the key')}`, ({ value }) => BigInt(value));
  }

  /** The cells of the table from one key to another, both with them, that aren't 0, by their keys: pairs of a key and a
   * value. They are asked for as they are taken, a page of at most `limit` cells (10000 at most) at a time. Each page is of
   * one moment at one server, and a later page of a later one: together they are of no one moment. */
  async *readRange(table, from = 0n, to = MAX_WORD, { limit = 1000 } = {}) {
    const [end, most] = [wordOf(to, 'the last key'), wordOf(limit, 'the limit')];
    let start = wordOf(from, 'the first key');
    while (start !== null) {
      const path = `/cells/${encodeURIComponent(table)}?from=${start}&to=${end}&limit=${most}`;
      const [cells, next] = await this.#lookedUp(path, (found) => pageOf(found, start, end));
      yield* cells;
      start = next;
    }
  }

  /** What became of the request of that client under that number: what each server recorded of it, by server. There is one
   * record of a number that was used once, and none of a request that wasn't done, or was lost on its way. Books have no
   * record of what was done in the books before. */
  async find(client, number) {
    const path = `/requests/${wordOf(client, 'the client')}/${wordOf(number, 'the number')}`;
    try {
      return await this.#lookedUp(path, ({ records }) => records.map((found) => recordedOf(found, this.#readBooks)));
    } catch (fault) {
      if (fault instanceof Wrong && fault.reason === 'no such request') return [];
      throw fault;
    }
  }

  /** Leaves. A request begins a new connection. */
  async close() {
    await this.#alone(async () => {
      this.#hangUp();
      if (!this.#line) return;
      await this.#exchange(QUIT, bytesOf(), BYE, (found) => found.end()).catch(() => {});
      this.#drop();
    });
  }

  /** Has the service end: it takes no more clients, checks all that it told, and says whether it stood. Throws Lost where
   * it couldn't be asked, and ByeLost where it was and its bye didn't come. */
  async shut() {
    await this.#alone(async () => {
      try {
        await this.#tried(async () => {
          await this.#ready();
          await this.#send(SHUT, bytesOf());
        });
        await this.#answer(BYE, (found) => found.end());
      } catch (fault) {
        throw fault instanceof Broken ? new ByeLost(fault) : fault;
      } finally {
        this.#drop();
        this.#hangUp();
      }
    });
  }

  /** Does the work once all that was asked before is done. */
  #alone(work) {
    const done = this.#last.then(work);
    this.#last = done.catch(() => {});
    return done;
  }

  #kindOf(program, values) {
    if (typeof program === 'string') {
      const found = this.programs.get(program);
      if (!found) throw new Wrong('unknown-program');
      if (found.parameters.length !== values.length) throw new Wrong('arg-count');
      return found.number;
    }
    if (values.length > 8) throw new Wrong('arg-count');
    if (!(Number.isInteger(program) && program >= 0 && program <= 63)) throw new Wrong('unknown-program');
    return program;
  }

  #programAt(kind) {
    return this.#byNumber[kind] ?? { hops: 1, names: [], needs: [] };
  }

  #answerOf(found, number, kind) {
    const { hops, names, needs } = this.#programAt(kind);
    const answer = found.byte();
    if (answer === 0) {
      const chain = new Chain(found.byte(), found.word(), this.books);
      const [stamp, again, results] = [found.word(), found.byte() !== 0, found.words()];
      found.end();
      return new Begun(chain, stamp, results, again, number, names, this, hops);
    }
    if (answer === 8) {
      const [need, stamp, again] = [found.byte(), found.word(), found.byte() !== 0];
      found.end();
      return new Refused(need, stamp, again, number, needs[need]);
    }
    found.end();
    throw faultOf(answer);
  }

  /** Does the work, again and again where the connection or the service is gone: the same request is never done twice. */
  async #tried(work, drop = () => this.#drop()) {
    for (let attempt = 1; ; attempt += 1) {
      try {
        return await work();
      } catch (fault) {
        if (!(fault instanceof Broken || fault instanceof NoService)) throw fault;
        drop();
        if (attempt >= this.tries) throw fault instanceof Broken ? new Lost(fault) : fault;
      }
      await pause(milliseconds(attempt));
    }
  }

  /** What is read of what the service tells at a path of its status port. */
  #lookedUp(path, read) {
    return this.#alone(() => this.#tried(() => this.#lookedUpOnce(path, read), () => this.#hangUp()));
  }

  /** The same over the connection that is kept, and over a new one where the service hung up on that. */
  async #lookedUpOnce(path, read) {
    if (this.#reader) {
      try {
        return await this.#reader.told(path, read);
      } catch (fault) {
        if (!(fault instanceof Broken)) throw fault;
        this.#hangUp();
      }
    }
    this.#reader = await this.#opened();
    return this.#reader.told(path, read);
  }

  /** A connection to where the service tells its status. Its set is this client's, or goes on from it. */
  async #opened() {
    const notice = this.#folder === null ? null : await noticeOf(this.#folder);
    const status = notice ? notice.status : this.#status;
    if (status === null) throw new NoStatus();
    const reader = new Reader(this.#host, status, this.#timeout);
    try {
      this.#compare(await reader.set());
      await this.#check(notice);
      this.#readBooks = notice && notice.books;
      return reader;
    } catch (fault) {
      reader.drop();
      throw fault;
    }
  }

  async #exchange(tag, body, wanted, read) {
    await this.#send(tag, body);
    return this.#answer(wanted, read);
  }

  /** Connects, where it isn't connected any more, to ask what can be asked in these books alone, or in any. */
  async #ready(books = null, number = null, chain = null) {
    if (this.#line?.lost) this.#drop();
    const notice = this.#line || this.#folder === null ? null : await this.#find();
    if (books !== null && this.books !== null && books !== this.books) {
      throw new BooksClosed(books, this.books, this.client, number, chain);
    }
    if (!this.#line) await this.#connect(notice);
  }

  async #connect(notice) {
    if (this.#status !== null) this.#compare(await servedSet(this.#status, this.#host, this.#timeout));
    else if (notice) this.#compare(notice.setText);
    const line = new Line(this.#host, this.#port, this.#timeout);
    try {
      await line.open();
      await this.#check(notice);
    } catch (fault) {
      line.drop();
      throw fault;
    }
    this.#line = line;
  }

  async #send(tag, body) {
    const head = Buffer.alloc(5);
    head.writeUInt8(tag);
    head.writeUInt32BE(body.length, 1);
    await this.#line.send(Buffer.concat([head, body]));
  }

  async #answer(wanted, read) {
    const head = await this.#line.read(5);
    const length = head.readUInt32BE(1);
    if (head[0] !== wanted || length > MAX_BODY_BYTES) throw new Broken('what came is no answer');
    return read(new Body(await this.#line.read(length)));
  }

  /** Looks again where the service over the folder listens, and where its set is told: a kill leaves what the folder tells,
   * and another service may have its ports by now. The folder may lead to the next books. */
  async #find() {
    const notice = await noticeOf(this.#folder);
    this.#port = notice.port;
    this.#status = notice.status;
    if (this.books !== notice.books && this.owed.size) {
      const [first] = this.owed.keys();
      this.#unsettled = new BooksClosed(this.books, notice.books, this.client, null, Chain.parse(first));
      for (const name of this.owed.keys()) this.#closed.set(name, this.books);
      this.owed.clear();
    }
    this.books = notice.books;
    return notice;
  }

  /** It is connected to a service of the books of the notice, since these weren't closed before. */
  async #check(notice) {
    if (notice && await isCarried(notice.real)) throw new NoService(this.#folder);
  }

  /** The set that is served is this client's, or goes on from it. */
  #compare(setText) {
    if (setText !== this.setText && !extendsSet(setText, this.setText)) throw new OtherSet();
  }

  #drop() {
    this.#line?.drop();
    this.#line = null;
  }

  #hangUp() {
    this.#reader?.drop();
    this.#reader = null;
  }
}

function foundOf(body) {
  const found = body.byte() ? new Found(body.word(), body.words()) : null;
  body.end();
  return found;
}
