// Runs the vectors through node, lists each that node answers differently, and counts them by class:
//
//   node vectors/node.mjs
//
// URLs go through `fetch`, MIME types through `MIMEType` of node:util, and base64 through `atob`. Where these fail they tell
// neither why nor what came before, so any failure agrees with any refusal. Nothing is fetched from a network. The status is
// 1 where node 20, of which docs/DIFFERENCES.md tells, has a difference that is of no class there.
import { readdirSync, readFileSync } from 'node:fs';
import { MIMEType } from 'node:util';

const hex = (bytes) => Buffer.from(bytes).toString('hex');

// The answer to a data: URL; no other is fetched.
async function url(input) {
  const parsed = new URL(input);
  if (parsed.protocol !== 'data:') throw new TypeError('no data: URL');
  const mark = parsed.href.indexOf('#');
  const response = await fetch(input);
  const body = hex(new Uint8Array(await response.arrayBuffer()));
  return [response.headers.get('content-type'), body, mark < 0 ? null : parsed.href.slice(mark + 1)];
}

const mime = (input) => [new MIMEType(input).toString()];
const base64 = (input) => [hex(Buffer.from(atob(input), 'latin1'))];

const kinds = [
  ['url', url, ['mime', 'body', 'fragment']],
  ['mime', mime, ['printed']],
  ['base64', base64, ['bytes']],
];

const classes = [
  ['a space directly before `?`', (kind, input) => kind === 'url' && / [\t\n\r]*\?/.test(input)],
  ['a path that begins with `/`', (kind, input) => kind === 'url' && input.startsWith('data:/')],
  ['a backtick in a MIME type', (kind, input) => kind === 'url' && /^[^,#]*`/.test(input)],
  ['whitespace at the end of a quoted value that is not closed', (kind, input) => kind === 'mime' && /"[^"]*[ \t\n\r]$/.test(input)],
];

async function answer(call, input) {
  try {
    return await call(input);
  } catch {
    return null;
  }
}

let count = 0;
const found = new Map();
for (const [kind, call, keys] of kinds) {
  const folder = new URL(`${kind}/`, import.meta.url);
  for (const file of readdirSync(folder)) {
    for (const vector of JSON.parse(readFileSync(new URL(file, folder)))) {
      count += 1;
      const isRefused = 'refusal' in vector || 'fault' in vector;
      const wanted = JSON.stringify(isRefused ? null : keys.map((key) => vector[key]));
      const given = JSON.stringify(await answer(call, vector.input));
      if (wanted === given) continue;
      const of = classes.find(([, isOne]) => isOne(kind, vector.input))?.[0] ?? 'of no class';
      found.set(of, (found.get(of) ?? 0) + 1);
      console.log(`${kind} ${JSON.stringify(vector.input)}\n  wanted ${wanted}\n  node   ${given}`);
    }
  }
}
for (const [of, times] of found) console.log(`${of}: ${times}`);
console.log(`node ${process.version}: ${count} vectors, ${found.get('of no class') ?? 0} differences of no class`);
process.exitCode = process.version.startsWith('v20.') && found.has('of no class') ? 1 : 0;
