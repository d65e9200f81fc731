// Reads lines of hex, each one CBOR item, and prints the diagnostic notation of each as node-cbor (Debian's package
// `node-cbor`) writes it, a line each, or `refused`.
'use strict';

const fs = require('fs');
const cbor = require('cbor');

async function main() {
  const lines = fs.readFileSync(0, 'utf8').split('\n').filter((line) => line !== '');
  const answers = [];
  for (const line of lines) {
    try {
      answers.push((await cbor.diagnose(line, { max_depth: -1 })).replace(/\n$/, ''));
    } catch (error) {
      answers.push('refused');
    }
  }
  process.stdout.write(answers.join('\n') + '\n');
}

main();
