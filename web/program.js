// Runs padedit as WebAssembly: a request goes in as a line of JSON, and its reply comes out as one. Where the program reads and
// there is no request, the read waits for a promise (JSPI) and blocks nothing.

// A module with nothing but a memory of 64 bits.
const WIDE = new Uint8Array([0, 97, 115, 109, 1, 0, 0, 0, 5, 3, 1, 4, 0]);

/** Whether this browser can run the program. */
export const canRun = () =>
  typeof WebAssembly === 'object' && 'Suspending' in WebAssembly && 'promising' in WebAssembly && WebAssembly.validate(WIDE);

export class Program {
  #memory;
  #unread = []; // bytes of requests that the program hasn't read
  #wake = null; // goes on with a read that waits
  #asked = []; // who waits for a reply, in order
  #parts = []; // of a reply that has no end yet
  #fault = ''; // what the program says of its own end
  #isOver = false;
  #reading = new TextDecoder();
  #writing = new TextEncoder();

  /** Starts the program. `ended` is called with why, if it ever ends. */
  static async start(url, ended) {
    const program = new Program();
    const response = await fetch(url);
    if (!response.ok) throw new Error(`${url}: ${response.status}`);
    const env = {
      host_read: new WebAssembly.Suspending((at, most) => program.#read(at, most)),
      host_write: (to, at, count) => program.#write(to, at, count),
    };
    const { instance } = await WebAssembly.instantiate(await response.arrayBuffer(), { env });
    program.#memory = instance.exports.memory;
    WebAssembly.promising(instance.exports.main)(0, 0n).then(
      (status) => program.#end(program.#fault || `status ${status}`, ended),
      (trap) => program.#end(String(trap), ended),
    );
    return program;
  }

  /** The reply to a request. Replies come in the order of their requests. */
  ask(request) {
    if (this.#isOver) return Promise.reject(new Error('the program has ended'));
    this.#unread.push(this.#writing.encode(JSON.stringify(request) + '\n'));
    this.#wake?.();
    return new Promise((resolve, reject) => this.#asked.push({ resolve, reject }));
  }

  async #read(at, most) {
    if (this.#unread.length === 0) {
      await new Promise((resolve) => (this.#wake = resolve));
      this.#wake = null;
    }
    const first = this.#unread[0];
    const taken = first.subarray(0, Number(most));
    new Uint8Array(this.#memory.buffer, Number(at), taken.length).set(taken);
    if (taken.length === first.length) this.#unread.shift();
    else this.#unread[0] = first.subarray(taken.length);
    return BigInt(taken.length);
  }

  #write(to, at, count) {
    const text = this.#reading.decode(new Uint8Array(this.#memory.buffer, Number(at), Number(count)), { stream: true });
    if (to === 1) this.#reply(text);
    else this.#fault += text;
    return count;
  }

  #reply(text) {
    const [first, ...others] = text.split('\n');
    this.#parts.push(first);
    for (const part of others) {
      this.#asked.shift().resolve(JSON.parse(this.#parts.join('')));
      this.#parts = [part];
    }
  }

  #end(why, ended) {
    this.#isOver = true;
    for (const { reject } of this.#asked.splice(0)) reject(new Error(why));
    ended(why);
  }
}
