// What tests/test_languages.py asks of clients/javascript/lynx.mjs: lines in, a line out for each.
//
//     driver.mjs folder FOLDER CLIENT TRIES TIMEOUT    and driver.mjs uncounted .., without a first number
//     driver.mjs port PORT SET CLIENT TRIES TIMEOUT    and driver.mjs status PORT STATUS SET ..
import { createInterface } from 'node:readline';
import * as lynx from '../../clients/javascript/lynx.mjs';

const list = (values) => values.join(' ') || '-';
let bank, begun, records, lastFault;

function toldOf(answer) {
  const { stamp, again, number } = answer;
  if (answer instanceof lynx.Refused) return `refused ${answer.need} stamp ${stamp} again ${again} number ${number}: ${answer.text}`;
  const named = list(Object.entries(answer.named).map(([name, value]) => `${name}=${value}`));
  return `begun ${answer.chain} stamp ${stamp} results ${list(answer.results)} again ${again} number ${number} named ${named}`;
}

function recordedOf({ server, stamp, program, args, chain, results, need }) {
  return `server ${server} stamp ${stamp} program ${program} args ${list(args)} chain ${chain ?? '-'} results ${list(results)} `
    + `need ${need ?? '-'}`;
}

const verbs = {
  async begin(number, program, ...args) {
    const [under, books] = number.split('@');
    const options = under === '-' ? [] : [{ number: BigInt(under), ...(books && { books: BigInt(books) }) }];
    begun = await bank.begin(program, ...args.map(BigInt), ...options);
    return toldOf(begun);
  },
  async many(count, program, ...args) {
    const all = await Promise.all(Array.from({ length: Number(count) }, () => bank.begin(program, ...args.map(BigInt))));
    return list(all.map(({ chain, number }) => `${chain}/${number}`));
  },
  async look(chain, hop, seconds) {
    const found = await bank.look(chain === 'found' ? records[0].chain : chain, Number(hop), { wait: Number(seconds) });
    return found ? `found stamp ${found.stamp} results ${list(found.results)}` : 'absent';
  },
  async wait(seconds) {
    const results = await begun.wait(Number(seconds));
    return results ? `all ${results.map(list).join(' | ')}` : 'absent';
  },
  async settle(seconds) {
    return await bank.settle(Number(seconds)) ? 'settled' : 'absent';
  },
  async read(table, key) {
    return String(await bank.read(table, BigInt(key)));
  },
  async range(table, from, to, limit) {
    const cells = [];
    for await (const [key, value] of bank.readRange(table, BigInt(from), BigInt(to), { limit: Number(limit) })) {
      cells.push(`${key}=${value}`);
    }
    return list(cells);
  },
  async find(client, number) {
    records = await bank.find(BigInt(client), BigInt(number));
    return records.map(recordedOf).join(' | ') || '-';
  },
  async why() {
    return lastFault.message;
  },
  async books() {
    return String(bank.books ?? '-');
  },
  async closed() {
    const { old, new: next, client, number, chain } = lastFault;
    return `old ${old} new ${next} client ${client} number ${number ?? '-'} chain ${chain ?? '-'}`;
  },
  async close() {
    await bank.close();
    return 'closed';
  },
  async shut() {
    await bank.shut();
    return 'shut';
  },
};

async function told(work) {
  try {
    return await work();
  } catch (fault) {
    lastFault = fault;
    if (fault instanceof TypeError && way === 'uncounted') return 'fault NoNumber no-number -';
    return fault instanceof lynx.LynxError ? `fault ${fault.name} ${fault.reason} ${fault.number ?? '-'}` : `${fault.stack}`;
  }
}

const [way, where, ...words] = process.argv.slice(2);
const [client, tries, timeout] = words.slice(-3);
const counting = way === 'uncounted' ? {} : { first: 1 };
const options = { client: BigInt(client), ...counting, tries: Number(tries), timeout: Number(timeout) };
const status = way === 'status' ? { status: Number(words[0]) } : {};
const opening = () => (way === 'port' || way === 'status'
  ? lynx.Client.connect(Number(where), { ...options, ...status, setPath: words.at(-4) }) : lynx.Client.at(where, options));
console.log(await told(async () => {
  bank = await opening();
  return 'opened';
}));
for await (const line of createInterface({ input: process.stdin })) {
  const [verb, ...rest] = line.split(' ');
  console.log(await told(() => verbs[verb](...rest)));
}
