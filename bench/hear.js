'use strict';
// node hear.js PEERS RUNS: a client with one letter that it has not submitted hears 1,000 small edits of another, with the
// JavaScript algorithms and client of the folder PEERS/js-easysync. Prints a line for each size of the document: name,
// revisions per second, microseconds each (the best of so many runs), note.
const [peers, runs] = [process.argv[2], Number(process.argv[3]) || 3];
const E = require(`${peers}/js-easysync/easysync`);
const { Client, ATextDoc } = require(`${peers}/js-easysync/client`);

let x = 7n;
const next = () => {
  x = (x * 6364136223846793005n + 1442695040888963407n) & 0xffffffffffffffffn;
  return Number(x >> 33n);
};
const pick = (n) => next() % n;
const letter = () => String.fromCharCode(97 + pick(26));

// A document of so many units with one author, of which one in 60 is a newline and the last one is.
const makeDoc = (units, pool) => {
  const author = `*${pool.putAttrib(['author', 'a.0']).toString(36)}`;
  let text = '';
  while (text.length < units - 1) text += pick(60) === 0 ? '\n' : letter();
  text += '\n';
  const assembler = new E.SmartAssembler();
  assembler.appendText('+', text, author);
  return { text, attribs: assembler.toString() };
};

// Small edits of a text, one after another.
const history = (start, count) => {
  const out = [];
  let text = start;
  for (let i = 0; i < count; i++) {
    const at = pick(text.length - 10);
    const n = 1 + pick(3);
    const cs = pick(4) ? E.makeSplice(text, at, 0, letter().repeat(n), '*0') : E.makeSplice(text, at, n, '');
    out.push(cs);
    text = E.applyToText(cs, text);
  }
  return out;
};

const REVISIONS = 1000;
let sink = 0;
for (const [label, units] of [['10KB', 10000], ['1MB', 1000000]]) {
  const pool = new E.AttributePool();
  const doc = makeDoc(units, pool);
  const changes = history(doc.text, REVISIONS);
  const typed = E.makeSplice(doc.text, units / 2, 0, 'x', '');
  let best = Infinity;
  for (let run = 0; run < runs; run++) {
    const client = new Client(new ATextDoc(doc, pool), new ATextDoc(doc, pool), 0, '1.1', pool);
    client.edit(typed);
    const begin = process.hrtime.bigint();
    changes.forEach((cs, i) => client.news(i + 1, cs, '1.2'));
    best = Math.min(best, Number(process.hrtime.bigint() - begin) / 1e3 / REVISIONS);
    sink += client.view.length;
  }
  console.log(`${label}/hear\t${(1e6 / best).toFixed(0)}\t${best.toFixed(2)}\tone unsent letter, ${REVISIONS} small edits of another`);
}
console.log(`# sink ${sink % 10}`);
