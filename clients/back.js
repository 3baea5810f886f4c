// Writes arrays back with Node's JSON.stringify: `back.js STYLE FILE..` reads each text and prints it again, after a byte 1E, alone or
// among other members. Styles: plain (compact, numbers as doubles), small and tabs (two spaces, or tabs; a number from 2^53 on becomes
// null), source (compact; every number exactly, by JSON.rawJSON, which newer versions have), odd (what else may stand for a number).
'use strict';
const fs = require('fs');

const [style, ...files] = process.argv.slice(2);
const before = {
  note: 'a "quoted" word, a \\ and a / \b\f\n\r\t\0\x01\x1f\x7f',
  größe: 'naïve €, 日本, \u{1f600}, \u2028',
  half: '\ud83d',
  nested: { data: [9, 9], a: { b: [[], {}, [{ data: null }]] } },
  Data: [1],
  'd\\u0061ta': 2,
};
const deep = JSON.parse('['.repeat(15) + ']'.repeat(15));
const after = {
  '': [1.5, -0.125, 1e-7, 2.5e30],
  true: true,
  false: false,
  null: null,
  'data ': '{"data":[7]}',
  12: 'twelve',
  deep,
  'd\u0430ta': 3,
};
const odd = [5.0, -0, 1e18, 1e21, 2 ** 63, NaN, '7', undefined];

function small(value) {
  if (Array.isArray(value)) return value.map(small);
  return typeof value === 'number' && !Number.isSafeInteger(value) ? null : value;
}

function exact(key, value, context) {
  return typeof value === 'number' ? BigInt(context.source) : value;
}

function raw(key, value) {
  return typeof value === 'bigint' ? JSON.rawJSON(String(value)) : value;
}

function written(text) {
  if (style === 'plain') return JSON.stringify(JSON.parse(text));
  if (style === 'source') return JSON.stringify(JSON.parse(text, exact), raw);
  const data = small(JSON.parse(text).data);
  if (style === 'small') return JSON.stringify({ ...before, data, ...after }, null, 2);
  return JSON.stringify({ ...after, data, nested: before.nested }, null, '\t').replace('"data": ', '"\\u0064at\\u0061" :\r\n');
}

if (style === 'odd') {
  for (const number of odd) process.stdout.write('\x1e' + JSON.stringify({ data: [1, number, 3] }));
} else {
  for (const file of files) process.stdout.write('\x1e' + written(fs.readFileSync(file, 'utf8')));
}
