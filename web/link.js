// A connection that comes back by itself: at once, then after 1, 2, 4 .. 30 seconds, and at once when the browser is online
// again or the window is shown.

const LONGEST_PAUSE = 30_000;
const LONGEST_OPENING = 10_000;

export class Link {
  #url;
  #on;
  #socket = null;
  #tries = 0;
  #timer = 0;

  /** `on` has `opened`, `message` with a text, and `lost`. */
  constructor(url, on) {
    this.#url = url;
    this.#on = on;
    addEventListener('online', () => this.hurry());
    document.addEventListener('visibilitychange', () => document.visibilityState === 'visible' && this.hurry());
  }

  open() {
    clearTimeout(this.#timer);
    this.#timer = 0;
    const socket = new WebSocket(this.#url);
    this.#socket = socket;
    const isStill = () => this.#socket === socket;
    const opening = setTimeout(() => socket.readyState === WebSocket.CONNECTING && socket.close(), LONGEST_OPENING);
    socket.onopen = () => isStill() && this.#on.opened();
    socket.onmessage = ({ data }) => isStill() && this.#on.message(data);
    socket.onclose = () => {
      clearTimeout(opening);
      if (!isStill()) return;
      this.#socket = null;
      this.#again();
      this.#on.lost();
    };
  }

  /** The server speaks with us: the next loss is the first one. */
  isWell() {
    this.#tries = 0;
  }

  send(text) {
    if (this.#socket?.readyState === WebSocket.OPEN) this.#socket.send(text);
  }

  /** Lets this connection go, and takes another. */
  renew() {
    this.#socket?.close();
  }

  /** Lets it go for good. */
  close() {
    clearTimeout(this.#timer);
    this.#timer = 0;
    const socket = this.#socket;
    this.#socket = null;
    socket?.close();
  }

  /** Where it waits to try again, it tries now. */
  hurry() {
    if (this.#timer) this.open();
  }

  #again() {
    const pause = this.#tries === 0 ? 0 : Math.min(LONGEST_PAUSE, 500 * 2 ** this.#tries);
    this.#tries++;
    this.#timer = setTimeout(() => this.open(), pause);
  }
}
