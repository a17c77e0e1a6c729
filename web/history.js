// The slider over all revisions. It asks padedit for one at a time, and shows the last that was wanted.
import { PadText } from './text.js';

const PLAYED_EACH = 250;
const $ = (id) => document.getElementById(id);

export class History {
  #ask;
  #text = null;
  #head = 0;
  #asked = null; // the revision that was asked for and isn't shown yet
  #playing = 0;

  /** `ask` asks for a revision. What came of it is given to `show`, or more is fetched first. */
  constructor({ ask }) {
    this.#ask = ask;
    $('slider').addEventListener('input', () => this.#want());
    $('play').addEventListener('click', () => this.#play(!this.#playing));
  }

  open(head) {
    this.#text ??= new PadText($('then'), { label: 'The text at this revision', readOnly: true });
    this.showHead(head);
    $('slider').value = head;
    $('text').hidden = true;
    $('slider').focus();
    this.#text.cm.refresh();
    this.#want();
  }

  close() {
    this.#play(false);
    this.forget();
    $('text').hidden = false;
  }

  showHead(head) {
    this.#head = head;
    $('slider').max = head;
  }

  show({ text, attribs, pool }) {
    const shown = this.#asked ?? Number($('slider').value);
    this.#asked = null;
    this.#text.show(text, attribs, pool);
    $('shown').textContent = `Revision ${shown} of ${this.#head}`;
    $('slider').setAttribute('aria-valuetext', $('shown').textContent);
    if (shown !== Number($('slider').value)) this.#want();
  }

  /** What was asked for won't come. */
  forget() {
    this.#asked = null;
  }

  #want() {
    if (this.#asked === null) this.#request(Number($('slider').value));
  }

  async #request(to) {
    this.#asked = to;
    const { refused } = await this.#ask(to);
    if (refused) this.#asked = null;
  }

  #play(is) {
    clearInterval(this.#playing);
    this.#playing = 0;
    $('play').setAttribute('aria-pressed', String(is));
    $('play').setAttribute('aria-label', is ? 'Pause' : 'Play');
    if (!is) return;
    if (Number($('slider').value) >= this.#head) $('slider').value = 0;
    this.#want();
    this.#playing = setInterval(() => {
      if (Number($('slider').value) >= this.#head) return this.#play(false);
      if (this.#asked !== null) return;
      $('slider').value = Number($('slider').value) + 1;
      this.#want();
    }, PLAYED_EACH);
  }
}
