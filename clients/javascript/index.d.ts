/** A client of a Lynx service, for Node 18 or later. The head of lynx.mjs tells of numbers, waits and overlapping calls. */

/** A number of 64 bits: a BigInt, or a whole number below 2^53. */
export type Word = bigint | number;

/** The version of Lynx that it belongs to. */
export const version: string;

/** Why a request was not done. */
export class LynxError extends Error {
  constructor(reason: string, text?: string, options?: { cause?: unknown });
  /** The word of docs/FORMATS.md. */
  reason: string;
  /** The request's number, where it had one: what is asked again is asked under it. */
  number: bigint | null;
}

/** This client used this number for another request. */
export class Clash extends LynxError {
  constructor();
}

/** The request doesn't fit its program, or there is no such program: nothing was done. `reason` says why. Of a read it is
 * the service's sentence: there is no such table, say. */
export class Wrong extends LynxError {}

/** An argument isn't in its parameter's range. */
export class Outside extends Wrong {
  constructor();
}

/** The server has all the entries that it may have. */
export class Full extends LynxError {
  constructor();
}

/** A chain begun at this server has still to return there. Ask again later, under any number. */
export class Busy extends LynxError {
  constructor();
}

/** The server's store failed: it answers nothing until the service is started again. */
export class Stopped extends LynxError {
  constructor();
}

/** The service had no memory for it. Nothing was done. */
export class Wanting extends LynxError {
  constructor();
}

/** The connection was lost as often as was tried. Whether the request was done isn't known: ask again under its number. */
export class Lost extends LynxError {
  constructor(cause: Error);
}

/** The end was asked for, and the service's bye was lost. */
export class ByeLost extends LynxError {
  constructor(cause: Error);
}

/** Nothing in the folder tells of a service: none runs over its stores, or it is about to begin or to end. */
export class NoService extends LynxError {
  constructor(folder: string);
}

/** The service serves a set that doesn't extend the client's. */
export class OtherSet extends LynxError {
  constructor();
}

/** The books were closed before the answer came, and the folder leads to the next ones, which have no record of it: it was
 * done or not, and `lynx find` in the old folder tells. This client never asks for it in other books. */
export class BooksClosed extends LynxError {
  constructor(old: bigint, next: bigint, client: bigint, number?: bigint | null, chain?: Chain | null);
  /** The number of the books that were closed. */
  readonly old: bigint;
  /** The number of the books to which the folder leads. */
  readonly new: bigint;
  /** The request's client; the request's number is null where a chain was looked for that no begin told. */
  readonly client: bigint;
  /** The chain that was looked for, null where a begin was asked for. */
  readonly chain: Chain | null;
}

/** The service tells no status, by which cells and requests are read. */
export class NoStatus extends LynxError {
  constructor();
}

/** A chain's name: its origin, and its index among the chains that began there. */
export class Chain {
  constructor(origin: number, index: Word, books?: Word | null);
  readonly origin: number;
  readonly index: bigint;
  /** The number of the books that have it, null where that isn't known: others may have another chain of this name. */
  readonly books: bigint | null;
  /** The chain of a text like `0:7`. */
  static parse(text: string): Chain;
  toString(): string;
}

/** The chain began, and its first hop gave these results. */
export class Begun {
  constructor(chain: Chain, stamp: bigint, results: bigint[], again: boolean, number: bigint, names?: string[],
    client?: Client | null, hops?: number);
  readonly chain: Chain;
  readonly stamp: bigint;
  readonly results: bigint[];
  /** The results by what the set calls them. */
  readonly named: Record<string, bigint>;
  /** Whether it had begun before, by this very request. */
  readonly again: boolean;
  readonly number: bigint;
  /** The results of all its hops, hop 0 first, once the last is done; null where it isn't within so many seconds. */
  wait(seconds?: number): Promise<bigint[][] | null>;
}

/** The first hop refused: this `need` of it, counted from 0, wasn't met. It counts as an answer, not as a fault. */
export class Refused {
  constructor(need: number, stamp: bigint, again: boolean, number: bigint, text?: string);
  readonly need: number;
  readonly stamp: bigint;
  readonly again: boolean;
  readonly number: bigint;
  /** The need as the set has it. */
  readonly text: string;
}

/** The hop is done, with these results. */
export class Found {
  constructor(stamp: bigint, results: bigint[]);
  readonly stamp: bigint;
  readonly results: bigint[];
}

/** What a server recorded of a request: the chain that it began, or the need that wasn't met. */
export class Recorded {
  constructor(server: number, stamp: bigint, program: string, args: bigint[], chain: Chain | null, results: bigint[],
    need: number | null);
  readonly server: number;
  readonly stamp: bigint;
  readonly program: string;
  readonly args: bigint[];
  /** The chain that began, null where the first hop refused. */
  readonly chain: Chain | null;
  /** The results of its first hop. */
  readonly results: bigint[];
  /** The need that wasn't met, counted from 0, null where a chain began. */
  readonly need: number | null;
}

/** A program of a set. */
export interface Program {
  readonly number: number;
  readonly parameters: string[];
  readonly hops: number;
  /** The names of the results of its first hop. */
  readonly names: string[];
  /** The needs of its first hop. */
  readonly needs: string[];
}

/** The programs of a set's text, by their names. The text is not judged: the service has judged its own. */
export function programsOf(text: string): Map<string, Program>;

/** The text of the set of the service that tells its status at this port. */
export function servedSet(status: number, host?: string, timeout?: number): Promise<string>;

/** What a folder tells of its service. */
export interface Notice {
  readonly port: number;
  readonly status: number | null;
  readonly setText: string;
  /** The number of the books. */
  readonly books: bigint;
}

/** The port of the service over the stores of the folder, that of its status if it tells one, its set, and the number of the
 * books. */
export function serviceOf(folder: string): Promise<Notice>;

/** Whether the set of the text `next` has all that the one of `old` has, under the same numbers. Neither is judged. */
export function extendsSet(next: string, old: string): boolean;

/** Options of a client. */
export interface Options {
  /** Its id; drawn at random. */
  client?: Word;
  /** The first number that it gives a request by itself: 1 where the id was drawn, else none. */
  first?: Word;
  /** 127.0.0.1 */
  host?: string;
  /** For how many seconds it waits for the service each time; 30. */
  timeout?: number;
  /** How often a request is asked while connections are lost; 5. */
  tries?: number;
}

/** Options of a client at a port: its set, and the port at which the service tells its status. */
export interface PortOptions extends Options {
  setPath?: string;
  setText?: string;
  status?: number | null;
}

/** A client of a service, made by `Client.at` or `Client.connect`. It connects with its first request. */
export class Client {
  /** A client of the service over the stores of a folder, by the set that it serves. */
  static at(folder: string, options?: Options): Promise<Client>;
  /** A client of the service at a port, by the set of the file `setPath` or of the text `setText`. */
  static connect(port: number, options?: PortOptions): Promise<Client>;
  constructor(options: Options & { port: number; setText: string; status?: number | null; folder?: string | null;
    books?: bigint | null });
  readonly client: bigint;
  /** The number of the books that the folder led to when it was read last, null at a port. */
  readonly books: bigint | null;
  readonly setText: string;
  readonly programs: Map<string, Program>;
  /** The chains that it began and whose last hop it hasn't seen, by their names, with the number of that hop. */
  readonly owed: Map<string, number>;
  tries: number;
  nextNumber: bigint;
  /** Begins a chain of the program, by its name or its number in the set; other answers are thrown. The last argument may
   * be `{ number, books }`. A client with an id of its own and no `first` needs a number: it throws a TypeError. `books` are
   * those in which an earlier process asked under the number: it is asked in no others. */
  begin(program: string | number, ...args: Word[]): Promise<Begun | Refused>;
  begin(program: string | number, ...args: [...Word[], { number?: Word, books?: Word }]): Promise<Begun | Refused>;
  /** What that hop of the chain did: Found, or null where it isn't done within `wait` seconds. A chain whose books aren't
   * known is one of the books that the client had last. */
  look(chain: Chain | string, hop: number, options?: { wait?: number }): Promise<Found | null>;
  /** Whether all chains that it began are done, within so many seconds. Of chains that were owed when their books were closed
   * it is BooksClosed, once. */
  settle(seconds?: number): Promise<boolean>;
  /** What a cell of the table holds, 0n where nothing was put: at its server, at one moment, after whole steps. */
  read(table: string, key: Word): Promise<bigint>;
  /** The cells from one key to another, both with them, that aren't 0, by their keys. They are asked for as they are taken,
   * `limit` cells at a time at most, 1000 where it isn't given. Each page is of one moment at one server. */
  readRange(table: string, from?: Word, to?: Word, options?: { limit?: number }): AsyncGenerator<[bigint, bigint], void, undefined>;
  /** What became of a request: what each server recorded of it. It is empty where there is no such request. */
  find(client: Word, number: Word): Promise<Recorded[]>;
  /** Leaves. A request begins a new connection. */
  close(): Promise<void>;
  /** Has the service end. Throws Lost where it couldn't be asked, and ByeLost where its bye didn't come. */
  shut(): Promise<void>;
}
