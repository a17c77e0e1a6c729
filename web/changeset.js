// Reads the changesets and attributed texts that padedit tells, which are well formed. It makes none.
import { remembered } from './remembered.js';

const number = (digits) => (digits ? parseInt(digits, 36) : 0);

/** The lengths before and after a changeset. */
export function lengthsOf(changeset) {
  const [, old, sign, by] = /^Z:([0-9a-z]+)([<>])([0-9a-z]+)/.exec(changeset);
  const before = number(old);
  return { before, after: sign === '>' ? before + number(by) : before - number(by) };
}

function* operations(spelled, pool, bank) {
  const pairsOf = remembered((attribs) => attribs.split('*').slice(1).map((n) => pool.numToAttrib[number(n)]));
  let at = 0;
  for (const [, attribs, lines, kind, digits] of spelled.matchAll(/((?:\*[0-9a-z]+)*)(?:\|([0-9a-z]+))?([-+=])([0-9a-z]+)/g)) {
    const units = number(digits);
    const step = { kind, units, lines: number(lines), pairs: pairsOf(attribs), text: '' };
    if (kind === '+') {
      step.text = bank.slice(at, at + units);
      at += units;
    }
    yield step;
  }
}

/** What a changeset does, from left to right: `kind` is keep (=), drop (-) or insert (+). */
export function stepsOf(changeset, pool) {
  const end = changeset.indexOf('$');
  const head = /^Z:[0-9a-z]+[<>][0-9a-z]+/.exec(changeset)[0].length;
  return operations(changeset.slice(head, end), pool, changeset.slice(end + 1));
}

/** The stretches of an attributed text, each with its pairs. */
export const stretchesOf = (attribs, pool, text) => operations(attribs, pool, text);
