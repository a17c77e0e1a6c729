// Stretches of lines, each with its attributes: {from, to, attrs}. Those of a line are in order and share no unit.
import { Attrs } from './attrs.js';
import { stretchesOf } from './changeset.js';
import { remembered } from './remembered.js';

/** The place behind so many units, of which so many end a line. */
export const placeBehind = ({ line, ch }, { units, lines }) => (lines ? { line: line + lines, ch: 0 } : { line, ch: ch + units });

/** The part of each line within a stretch. */
export function* eachLine(from, to, lengthOf) {
  for (let line = from.line; line <= to.line; line++) {
    const end = line === to.line ? to.ch : lengthOf(line);
    if (line === to.line && end === 0) return;
    yield [line, line === from.line ? from.ch : 0, end];
  }
}

/** The stretches of each line of an attributed text. */
export function stretchesByLine(attribs, pool, text) {
  const lines = text.split('\n');
  const all = lines.map(() => []);
  const lengthOf = (n) => lines[n]?.length ?? 0;
  const attrsOf = remembered(Attrs.of);
  let at = { line: 0, ch: 0 };
  for (const step of stretchesOf(attribs, pool, text)) {
    const end = placeBehind(at, step);
    const attrs = attrsOf(step.pairs);
    if (attrs !== Attrs.NONE) for (const [line, from, to] of eachLine(at, end, lengthOf)) if (from < to) all[line].push({ from, to, attrs });
    at = end;
  }
  return all;
}

/**
 * The stretches of a line after the attributes from one place to another became what `become` makes of them. Those that are
 * neighbours and equal become one.
 */
export function painted(stretches, from, to, become) {
  const made = [];
  const add = (a, b, attrs) => {
    const last = made.at(-1);
    if (a >= b || attrs === Attrs.NONE) return;
    if (last && last.to === a && last.attrs === attrs) last.to = b;
    else made.push({ from: a, to: b, attrs });
  };
  let at = from;
  const bare = (end) => {
    add(at, end, become(Attrs.NONE));
    at = Math.max(at, end);
  };
  for (const it of stretches) {
    add(it.from, Math.min(it.to, from), it.attrs);
    bare(Math.min(it.from, to));
    const end = Math.min(it.to, to);
    if (at < end) add(at, end, become(it.attrs));
    at = Math.max(at, end);
    if (it.to >= to) bare(to);
    add(Math.max(it.from, to), it.to, it.attrs);
  }
  bare(to);
  return made;
}
