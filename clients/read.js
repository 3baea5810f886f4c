// Reads each text with JSON.parse and prints what it finds: the text's name, the widths, and a line a cell; or why it can't be read.
// A number is printed with the exact value of the double that it has become. `read.js source ..` makes a BigInt of a number that a double
// may have rounded, from the source text that JSON.parse of newer versions hands to a reviver.
'use strict';
const fs = require('fs');
const path = require('path');

const [way, ...files] = process.argv.slice(2);

function exact(key, value, context) {
  return typeof value === 'number' && !Number.isSafeInteger(value) ? BigInt(context.source) : value;
}

function widths(value) {
  if (!Array.isArray(value)) return '';
  const below = new Set(value.map(widths));
  return `${value.length} ${below.size > 1 ? 'ragged' : [...below].join()}`.trimEnd();
}

function shown(value) {
  if (Object.is(value, -0)) return '-0';
  return typeof value === 'bigint' || Number.isInteger(value) ? String(BigInt(value)) : JSON.stringify(value);
}

function found(text) {
  const whole = way === 'source' ? JSON.parse(text, exact) : JSON.parse(text);
  if (Object.keys(whole).join() !== 'data') throw new Error('not an object with the member data alone');
  return [widths(whole.data), ...[whole.data].flat(Infinity).map(shown)];
}

for (const file of files) {
  console.log('== ' + path.basename(file, '.json'));
  try {
    console.log(found(fs.readFileSync(file, 'utf8')).join('\n'));
  } catch (error) {
    console.log('unread: ' + error.message.split('\n')[0]);
  }
}
