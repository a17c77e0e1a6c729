// The text that is shown: CodeMirror, with a mark for each stretch of a line that has attributes.
//
// A large text has more stretches than can be marked at once. So a line of a document that came whole keeps its stretches
// beside it, as `due`, and gets its marks when it is about to be seen, or to be changed.
//
// A pad's text ends with a line feed, which isn't shown: so the last line is no empty one. Places count UTF-16 units.
import { Attrs, STYLES } from './attrs.js';
import { lengthsOf, stepsOf } from './changeset.js';
import { remembered } from './remembered.js';
import { eachLine, painted, placeBehind, stretchesByLine } from './stretches.js';

const RIGHT_TO_LEFT = /[\u0590-\u08ff\u200f\ufb1d-\ufdff\ufe70-\ufeff]|[\ud802\ud803\ud83a\ud83b][\udc00-\udfff]/;
/** So many units tell which way a text runs. */
const TELLING = 1000;
/** So many lines of a selection tell which styles it has. */
const LINES_LOOKED_AT = 200;
/** So many lines above and below those that are seen have their marks too. */
const MARKED_AROUND = 100;
/** CodeMirror reads what an input method wrote in this time. */
const READ_IN = 120;
/** An input method that does nothing for so long isn't waited for. */
const LONGEST_WORD = 5000;

const isBefore = (a, b) => a.line < b.line || (a.line === b.line && a.ch < b.ch);
const isHigh = (unit) => unit >= 0xd800 && unit < 0xdc00;
const isLow = (unit) => unit >= 0xdc00 && unit < 0xe000;

export class PadText {
  length = 0; // units of the whole text
  #endIsHidden = false;
  #isTold = false; // the change that is made now was told, not typed
  #typed = []; // edits of the operation that is being made
  #next = null; // pairs for what is typed next at a place
  #composing = 0; // a timer, while an input method writes and until what it wrote is read
  own = []; // pairs of all that is typed here

  /**
   * `typed` is called with each edit of the person, before it is made: {at, drop, put, with}. `moved` says that the cursor is
   * elsewhere, and `settled` that an input method has put in what it made.
   */
  constructor(parent, { label, readOnly = false, typed = () => {}, moved = () => {}, settled = () => {}, keys = {} }) {
    this.cm = CodeMirror(parent, {
      inputStyle: 'contenteditable',
      lineSeparator: '\n',
      lineWrapping: true,
      lineWiseCopyCut: false,
      mode: 'null',
      smartIndent: false,
      undoDepth: 0,
      spellcheck: true,
      autocorrect: true,
      autocapitalize: true,
      screenReaderLabel: label,
      readOnly,
      configureMouse: () => ({ addNew: false }),
      // Tab leaves the text, for people who have no mouse
      extraKeys: { Tab: false, 'Shift-Tab': false, Enter: (cm) => cm.replaceSelection('\n', 'end', '+input'), ...keys },
    });
    this.cm.on('beforeChange', (_, change) => {
      this.#markEnds(change);
      this.#typing(change, typed);
    });
    this.cm.on('change', () => this.#colourTyped());
    this.cm.on('viewportChange', () => this.#markSeen());
    this.cm.on('cursorActivity', () => moved());
    const input = this.cm.getInputField();
    input.setAttribute('role', 'textbox');
    input.setAttribute('aria-multiline', 'true');
    if (readOnly) input.setAttribute('aria-readonly', 'true');
    this.#watchComposing(input, settled);
  }

  /** An input method writes into the page's own elements, and CodeMirror reads it there soon after. */
  #watchComposing(input, settled) {
    const wait = (pause) => {
      clearTimeout(this.#composing);
      this.#composing = setTimeout(() => {
        this.#composing = 0;
        settled();
      }, pause);
    };
    input.addEventListener('compositionstart', () => wait(LONGEST_WORD));
    input.addEventListener('compositionupdate', () => wait(LONGEST_WORD));
    input.addEventListener('compositionend', () => wait(READ_IN));
    input.addEventListener('input', ({ isComposing }) => isComposing || wait(READ_IN));
  }

  /** Whether an input method writes now, so that nothing may be altered beside it. */
  get isComposing() {
    return this.#composing !== 0;
  }

  setReadOnly(is) {
    this.cm.setOption('readOnly', is);
    this.cm.getInputField().setAttribute('aria-readonly', String(is));
  }

  /** The whole text. */
  get text() {
    return this.cm.getValue('\n') + (this.#endIsHidden ? '\n' : '');
  }

  // ---- what is told

  /** Shows another document. The cursor stays at its place. */
  show(text, attribs, pool) {
    const cursor = this.cm.getCursor();
    this.#told(() => {
      this.length = text.length;
      this.#endIsHidden = text.endsWith('\n');
      const shown = this.#endIsHidden ? text.slice(0, -1) : text;
      this.cm.setValue(shown);
      const stretches = stretchesByLine(attribs, pool, shown).values();
      this.cm.eachLine((line) => void (line.due = stretches.next().value));
      this.cm.setCursor(cursor, undefined, { scroll: false });
      this.#markSeen();
    });
    this.#markSeen();
    this.#turn();
  }

  /** Makes a change of the whole text, and answers the place behind what it altered last. */
  apply(changeset, pool) {
    const { before, after } = lengthsOf(changeset);
    if (before !== this.length) throw new Error(`a change of ${before} units came to ${this.length}`);
    let altered = null;
    const top = this.#topLine();
    this.#told(() => {
      const ends = ['anchor', 'head'].map((end) => this.cm.setBookmark(this.cm.getCursor(end)));
      let at = { line: 0, ch: 0 };
      for (const step of stepsOf(changeset, pool)) {
        at = this.#take(step, at);
        if (step.kind !== '=' || step.pairs.length) altered = at;
      }
      this.#hideEnd();
      this.#backTo(ends);
    });
    this.length = after;
    this.#keepInView(top);
    this.#turn();
    return altered;
  }

  #told(make) {
    this.#isTold = true;
    try {
      this.cm.operation(make);
    } finally {
      this.#isTold = false;
    }
  }

  /** Makes one step at its place, and answers where the next one is. */
  #take(step, at) {
    if (step.kind === '+') {
      if (at.line > this.cm.lastLine()) this.#showEnd();
      this.cm.replaceRange(step.text, at);
      const end = placeBehind(at, step);
      this.#paint(at, end, () => Attrs.of(step.pairs));
      return end;
    }
    const end = placeBehind(at, step);
    if (step.kind === '=') {
      if (step.pairs.length) this.#paint(at, end, remembered((attrs) => attrs.with(step.pairs)));
      return end;
    }
    if (end.line > this.cm.lastLine()) this.#showEnd();
    this.cm.replaceRange('', at, end);
    return at;
  }

  #end() {
    const line = this.cm.lastLine();
    return { line, ch: this.cm.getLine(line).length };
  }

  #showEnd() {
    if (this.#endIsHidden) this.cm.replaceRange('\n', this.#end());
    this.#endIsHidden = false;
  }

  #hideEnd() {
    const last = this.cm.lastLine();
    if (this.#endIsHidden || last === 0 || this.cm.getLine(last) !== '') return;
    this.cm.replaceRange('', { line: last - 1, ch: this.cm.getLine(last - 1).length }, { line: last, ch: 0 });
    this.#endIsHidden = true;
  }

  /** The selection goes back where it was: before what was put there. So what each person types stays together. */
  #backTo(marks) {
    const [anchor, head] = marks.map((mark) => mark.find());
    for (const mark of marks) mark.clear();
    const is = (end, place) => !place || !(isBefore(this.cm.getCursor(end), place) || isBefore(place, this.cm.getCursor(end)));
    if (!is('anchor', anchor) || !is('head', head)) this.cm.setSelection(anchor, head, { scroll: false });
  }

  #topLine() {
    const { top } = this.cm.getScrollInfo();
    const line = this.cm.lineAtHeight(top, 'local');
    return { handle: this.cm.getLineHandle(line), below: top - this.cm.heightAtLine(line, 'local') };
  }

  /** What was at the top of the window stays there, whatever came above it. */
  #keepInView({ handle, below }) {
    const { top } = this.cm.getScrollInfo();
    if (top === 0 || this.cm.getLineNumber(handle) === null) return;
    const due = this.cm.heightAtLine(handle, 'local') + below;
    if (Math.abs(due - top) > 1) this.cm.scrollTo(null, due);
  }

  /** The text runs as its first letter does. */
  #turn() {
    let first = '';
    for (let line = 0; line < this.cm.lineCount() && first.length < TELLING; line++) first += this.cm.getLine(line).slice(0, TELLING);
    const letter = /\p{L}/u.exec(first)?.[0] ?? '';
    const direction = RIGHT_TO_LEFT.test(letter) ? 'rtl' : 'ltr';
    if (this.cm.getOption('direction') !== direction) this.cm.setOption('direction', direction);
  }

  // ---- what is typed

  /** The person is about to change the text: the edit is made one that padedit takes, and told. */
  #typing(change, typed) {
    if (this.#isTold) return;
    const put = change.text.join('\n').replace(/\r\n?/g, '\n').toWellFormed();
    const from = this.#off(change.from, -1);
    const to = isBefore(change.from, change.to) ? this.#off(change.to, 1) : from;
    change.update(from, to, put.split('\n'));
    const at = this.cm.indexFromPos(from);
    const drop = this.cm.indexFromPos(to) - at;
    if (drop === 0 && put === '') return;
    const attrs = this.#attrsForTyping(from, at, drop);
    this.#next = null;
    this.#typed.push({ at, count: put.length, by: put.length - drop, attrs });
    this.length += put.length - drop;
    typed({ at, drop, put, with: [...attrs.pairs].filter(([key]) => key !== 'author') });
  }

  /** A place that cuts no pair. */
  #off({ line, ch }, by) {
    const text = this.cm.getLine(line);
    return { line, ch: isHigh(text.charCodeAt(ch - 1)) && isLow(text.charCodeAt(ch)) ? ch + by : ch };
  }

  /** What is typed looks as what stands before it, or as was said last. */
  #attrsForTyping(from, at, drop) {
    const beside = drop > 0 || from.ch === 0 ? from : { line: from.line, ch: from.ch - 1 };
    const there = this.attrsAt(beside);
    const styles = STYLES.filter((style) => there.has(style)).map((style) => [style, 'true']);
    const said = this.#next?.at === at ? this.#next.pairs : [];
    return Attrs.of([...styles, ...said, ...this.own]);
  }

  /** All edits of the operation have been made: each gets its attributes, where it stands now. */
  #colourTyped() {
    const edits = this.#typed;
    if (!edits.length || this.#isTold) return;
    this.#typed = [];
    this.#told(() => {
      for (const [i, { at, count, attrs }] of edits.entries()) {
        let from = at;
        for (const later of edits.slice(i + 1)) if (later.at <= from) from += later.by;
        this.#paint(this.cm.posFromIndex(from), this.cm.posFromIndex(from + count), () => attrs);
      }
    });
    if (edits.some(({ at }) => at < TELLING)) this.#turn();
  }

  /** What is typed at the cursor next has this style, or hasn't. */
  setNext(style, isOn) {
    const at = this.cm.indexFromPos(this.cm.getCursor());
    const said = this.#next?.at === at ? this.#next.pairs : [];
    this.#next = { at, pairs: [...said, [style, isOn ? 'true' : '']] };
  }

  // ---- attributes

  /** The selected stretch. */
  get selected() {
    const from = this.cm.indexFromPos(this.cm.getCursor('from'));
    return { at: from, count: this.cm.indexFromPos(this.cm.getCursor('to')) - from };
  }

  /** Whether all that is selected has a style, by its first lines; where nothing is, whether what is typed next has it. */
  isOn(style) {
    const [from, to] = [this.cm.getCursor('from'), this.cm.getCursor('to')];
    if (!isBefore(from, to)) return this.#attrsForTyping(from, this.#next && this.cm.indexFromPos(from), 0).has(style);
    for (const [line, a, b] of eachLine(from, to, (n) => this.cm.getLine(n).length)) {
      if (line > from.line + LINES_LOOKED_AT) return true;
      let covered = 0;
      for (const { from: f, to: t, attrs } of this.#stretches(line, a, b)) if (attrs.has(style)) covered += Math.min(t, b) - Math.max(f, a);
      if (covered < b - a) return false;
    }
    return true;
  }

  /** The attributes of the unit behind a place. */
  attrsAt({ line, ch }) {
    return this.#stretches(line, ch, ch + 1).find(({ from, to }) => from <= ch && ch < to)?.attrs ?? Attrs.NONE;
  }

  /** Every author of the text. */
  get authors() {
    const all = this.cm.getAllMarks();
    this.cm.eachLine(({ due = [] }) => void all.push(...due));
    return new Set(all.map(({ attrs }) => attrs?.author).filter(Boolean));
  }

  #mark(line, from, to, attrs) {
    if (from >= to || attrs === Attrs.NONE) return;
    const { className, css } = attrs;
    this.cm.markText({ line, ch: from }, { line, ch: to }, { className, css }).attrs = attrs;
  }

  /** A line whose marks are due gets them. */
  #markLine(n) {
    const line = this.cm.getLineHandle(n);
    const { due = [] } = line;
    line.due = undefined;
    for (const { from, to, attrs } of due) this.#mark(n, from, to, attrs);
  }

  /** The lines that are seen, and some around them. */
  #markSeen() {
    const { from, to } = this.cm.getViewport();
    const all = [];
    const note = (line) => void (line.due && all.push(line.lineNo()));
    this.cm.eachLine(Math.max(0, from - MARKED_AROUND), Math.min(to + MARKED_AROUND, this.cm.lineCount()), note);
    if (all.length) this.cm.operation(() => all.forEach((n) => this.#markLine(n)));
  }

  /** The first and the last line of what is about to be changed. CodeMirror then moves their marks; lines between them go. */
  #markEnds({ from, to, origin }) {
    if (origin !== 'setValue') for (const n of [from.line, to.line]) this.#markLine(n);
  }

  /** The stretches with attributes that share units with a stretch of a line or touch it, in order. */
  #stretches(line, from, to) {
    const { due } = this.cm.getLineHandle(line);
    if (due) return due.filter((it) => it.from <= to && it.to >= from);
    return this.cm
      .findMarks({ line, ch: Math.max(0, from - 1) }, { line, ch: to + 1 })
      .filter((mark) => mark.attrs)
      .map((mark) => {
        const found = mark.find();
        return { mark, attrs: mark.attrs, from: found.from.line < line ? 0 : found.from.ch, to: found.to.line > line ? Infinity : found.to.ch };
      })
      .sort((a, b) => a.from - b.from);
  }

  /** The attributes of a stretch become what `become` makes of them. */
  #paint(from, to, become) {
    for (const mark of this.cm.findMarks(from, to)) this.#cutAtLines(mark);
    for (const [line, a, b] of eachLine(from, to, (n) => this.cm.getLine(n)?.length ?? 0)) this.#paintLine(line, a, b, become);
  }

  /** A mark through which a line feed was put becomes one for each line. */
  #cutAtLines(mark) {
    const { from, to } = mark.find() ?? {};
    if (!mark.attrs || !from || from.line === to.line) return;
    mark.clear();
    for (const [line, a, b] of eachLine(from, to, (n) => this.cm.getLine(n).length)) this.#mark(line, a, b, mark.attrs);
  }

  #paintLine(n, from, to, become) {
    if (from >= to) return;
    const line = this.cm.getLineHandle(n);
    if (line.due) {
      line.due = painted(line.due, from, to, become);
      return;
    }
    const beside = this.#stretches(n, from, to);
    for (const { mark } of beside) mark.clear();
    for (const it of painted(beside, from, to, become)) this.#mark(n, it.from, it.to, it.attrs);
  }
}
