'use strict';
// node messages.js PEERS RUNS: messages of a pad server, with the JavaScript algorithms of the folder PEERS/js-easysync. A
// browser's message with a small edit is parsed, and its changeset brought to its one spelling and to the pad's pool; the news
// of a small edit are brought to a pool of their own and printed; and what a client is told that enters a pad with another
// author each 50 units is printed. Prints a line for each: name, messages per second, microseconds each (the best of so many
// runs), note.
const [peers, runs] = [process.argv[2], Number(process.argv[3]) || 5];
const E = require(`${peers}/js-easysync/easysync`);

let x = 7n;
const next = () => {
  x = (x * 6364136223846793005n + 1442695040888963407n) & 0xffffffffffffffffn;
  return Number(x >> 33n);
};
const pick = (n) => next() % n;
const letter = () => String.fromCharCode(97 + pick(26));
const EDITS = 64;
const AUTHOR = 'a.s8oes9dhwrvt0zif';

// A document of so many units with another author each `run` units, of which one in 60 is a newline and the last one is.
const makeDoc = (units, run, pool) => {
  const authors = [];
  for (let i = 0; i < 8; i++) authors.push(`*${pool.putAttrib(['author', `a.${i}`]).toString(36)}`);
  const [assembler, parts] = [new E.SmartAssembler(), []];
  for (let at = 0; at < units; at += run) {
    let text = '';
    while (text.length < Math.min(run, units - at)) text += at + text.length === units - 1 || pick(60) === 0 ? '\n' : letter();
    assembler.appendText('+', text, authors[parts.length % 8]);
    parts.push(text);
  }
  return { text: parts.join(''), attribs: assembler.toString() };
};

// Small edits of a text with the first author of a pool.
const edits = (text) => {
  const out = [];
  for (let i = 0; i < EDITS; i++) {
    const at = pick(text.length - 10);
    const n = 1 + pick(3);
    out.push(pick(4) ? E.makeSplice(text, at, 0, letter().repeat(n), '*0') : E.makeSplice(text, at, n, ''));
  }
  return out;
};

const sent = (cs, pool) => {
  const w = E.prepareForWire(cs, pool);
  const data = { apool: w.pool.toJsonable(), baseRev: 1, changeset: w.translated, type: 'USER_CHANGES' };
  return JSON.stringify({ component: 'pad', data, type: 'COLLABROOM' });
};

const read = (text, pool) => {
  const m = JSON.parse(text);
  const wire = new E.AttributePool().fromJsonable(m.data.apool);
  return E.moveOpsToNewPool(E.normalize(m.data.changeset), wire, pool).length;
};

const news = (cs, pool) => {
  const w = E.prepareForWire(cs, pool);
  const data = { apool: w.pool.toJsonable(), author: AUTHOR, changeset: w.translated, currentTime: 1790000000000, newRev: 2, session: '1.1', timeDelta: 250, type: 'NEW_CHANGES' };
  return JSON.stringify({ data, type: 'COLLABROOM' }).length;
};

const vars = (doc, pool) => {
  const w = E.prepareForWire(`Z:0>${doc.text.length.toString(36)}${doc.attribs}$`, pool);
  const attribs = w.translated.substring(w.translated.indexOf('>') + 1 + doc.text.length.toString(36).length, w.translated.length - 1);
  const now = { apool: w.pool.toJsonable(), initialAttributedText: { attribs, text: doc.text }, rev: 1, time: 1790000000000 };
  const data = { birth: 1, collab_client_vars: now, padId: 'pad', readonly: false, session: '1.1', userId: AUTHOR };
  return JSON.stringify({ data, type: 'CLIENT_VARS' }).length;
};

let sink = 0;
const say = (name, inputs, count, note, call) => {
  let best = Infinity;
  for (let run = 0; run < runs; run++) {
    const begin = process.hrtime.bigint();
    for (let i = 0; i < count; i++) sink += call(inputs[i % inputs.length]);
    best = Math.min(best, Number(process.hrtime.bigint() - begin) / 1e3 / count);
  }
  console.log(`${name}\t${(1e6 / best).toFixed(best > 1000 ? 2 : 0)}\t${best.toFixed(3)}\t${note}`);
};

for (const [label, units] of [['10KB', 10000], ['1MB', 1000000]]) {
  const pool = new E.AttributePool();
  const changes = edits(makeDoc(units, units, pool).text);
  const texts = changes.map((cs) => sent(cs, pool));
  say(`${label}/read-changes`, texts, 50000, `a message of about ${texts[0].length} units`, (text) => read(text, pool));
  say(`${label}/print-news`, changes, 50000, 'a small edit', (cs) => news(cs, pool));
  const own = new E.AttributePool();
  const doc = makeDoc(units, 50, own);
  say(`${label}/print-vars`, [doc], Math.max(3, 2000000 / units), 'another author each 50 units', (d) => vars(d, own));
}
console.log(`# sink ${sink % 10}`);
