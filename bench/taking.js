'use strict';
// node taking.js PEERS RUNS: a pad takes edits of one letter at random places, at the head and 1,000 revisions behind it, with
// the JavaScript algorithms and the pad of the folder PEERS/js-easysync. Prints a line for each size of the text: name, edits
// per second, microseconds each (the best of so many runs), note, with tabs between. The time is that of the pad's calls alone; at
// the head the edits are made before, and taken in a row.
const [peers, runs] = [process.argv[2], Number(process.argv[3]) || 3];
const E = require(`${peers}/js-easysync/easysync`);
const { Pad } = require(`${peers}/js-easysync/pad`);

let x = 7n;
const next = () => {
  x = (x * 6364136223846793005n + 1442695040888963407n) & 0xffffffffffffffffn;
  return Number(x >> 33n);
};
const pick = (n) => next() % n;
const letter = () => String.fromCharCode(97 + pick(26));

const makeText = (units) => {
  let text = '';
  while (text.length < units - 1) text += pick(60) === 0 ? '\n' : letter();
  return `${text}\n`;
};

// One letter is taken into the revision that has this text.
const take = (pad, base, text) => {
  const cs = E.makeSplice(text, pick(text.length), 0, 'x', '');
  const begin = process.hrtime.bigint();
  pad.accept(base, cs, null, 'a.0', '1.1', 0);
  return process.hrtime.bigint() - begin;
};

// So many letters, each at a place of what those before it make of a text.
const letters = (text, count) => {
  const changes = [];
  for (let i = 0; i < count; i++) {
    const at = pick(text.length);
    changes.push(E.makeSplice(text, at, 0, 'x', ''));
    text = `${text.slice(0, at)}x${text.slice(at)}`;
  }
  return changes;
};

// The head takes them in a row.
const takeAll = (pad, changes) => {
  const begin = process.hrtime.bigint();
  for (const cs of changes) pad.accept(pad.head, cs, null, 'a.0', '1.1', 0);
  return process.hrtime.bigint() - begin;
};

for (const [label, units] of [['10KB', 10000], ['1MB', 1000000]]) {
  for (const behind of [0, 1000]) {
    const count = behind ? 20 : 300;
    let best = Infinity;
    for (let run = 0; run < runs; run++) {
      const pad = new Pad('p');
      pad.create(makeText(units), 0);
      const [base, first] = [pad.head, pad.text()];
      for (let i = 0; i < behind; i++) take(pad, pad.head, pad.text());
      let spent = 0n;
      // The base stays, so that the last edits are a few more revisions behind.
      if (behind) for (let i = 0; i < count; i++) spent += take(pad, base, first);
      else spent = takeAll(pad, letters(first, count));
      best = Math.min(best, Number(spent) / 1e3 / count);
    }
    console.log(`${label}/take${behind}\t${(1e6 / best).toFixed(0)}\t${best.toFixed(2)}\tone letter, ${behind} revisions behind the head`);
  }
}
