// The attributes of a stretch of text, and how they look.

/** The attributes that a person sets, with the word of each. */
export const STYLES = ['bold', 'italic', 'underline', 'strikethrough'];

/** The colour of an author, as an angle: made of the id, so that it is the same for everybody. */
export function hueOf(author) {
  let hash = 2166136261;
  for (let i = 0; i < author.length; i++) hash = Math.imul(hash ^ author.charCodeAt(i), 16777619);
  hash = Math.imul(hash ^ (hash >>> 15), 2246822519);
  return ((hash ^ (hash >>> 13)) >>> 0) % 360;
}

/** A map of keys to values. Equal ones are one object. */
export class Attrs {
  static #all = new Map();
  static NONE = Attrs.of([]);

  constructor(pairs) {
    this.pairs = new Map(pairs);
    this.author = this.pairs.get('author') ?? '';
    this.className = STYLES.filter((style) => this.has(style)).map((style) => `is-${style}`).join(' ');
    this.css = '';
    if (this.author) {
      this.className = `is-authored ${this.className}`;
      this.css = `--hue:${hueOf(this.author)}`;
    }
  }

  static of(pairs) {
    const kept = [...new Map(pairs)].filter(([, value]) => value !== '').sort(([a], [b]) => (a < b ? -1 : 1));
    const name = JSON.stringify(kept);
    let attrs = Attrs.#all.get(name);
    if (!attrs) Attrs.#all.set(name, (attrs = new Attrs(kept)));
    return attrs;
  }

  /** Whether a style is on. */
  has(style) {
    return this.pairs.get(style) === 'true';
  }

  /** These with further pairs, of which an empty value removes its key. */
  with(pairs) {
    return Attrs.of([...this.pairs, ...pairs]);
  }
}
