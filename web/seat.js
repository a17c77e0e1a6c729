// Who a window is: its token, of its own among the windows that show a pad, and what it keeps through a reload.
//
// A browser has tokens 0, 1, 2 .. in its storage. A window takes the first that no other window of the pad holds, and holds it
// by a lock, which ends with the window. So a person stays one author, and a second window is another. Windows that read by a
// read-only id have tokens apart: it is another name of a pad that this person may have open.

const READ_ONLY = /^r\.[A-Za-z0-9]{16}$/;
const tokenKey = (pad, seat) => `padd.${READ_ONLY.test(pad) ? 'reader' : 'token'}.${seat}`;
const keptKey = (pad, seat) => `padd.kept.${seat}.${pad}`;
const MOST = 20;
/** A window that is loaded again waits so long for its own lock. */
const PATIENCE = 1000;

function fresh() {
  const letters = 'abcdefghijklmnopqrstuvwxyzABCDEFGHIJKLMNOPQRSTUVWXYZ0123456789';
  const drawn = crypto.getRandomValues(new Uint8Array(64)).filter((byte) => byte < 248);
  return 't.' + [...drawn.slice(0, 24)].map((byte) => letters[byte % 62]).join('');
}

/** The storage may be forbidden. Then nothing is kept. */
function store(kind) {
  try {
    window[kind].setItem('padd.probe', '');
    window[kind].removeItem('padd.probe');
    return window[kind];
  } catch {
    return { getItem: () => null, setItem: () => { throw new Error('no storage'); }, removeItem() {} };
  }
}

/** Holds a seat until the window ends, if nobody else does. */
const hold = (pad, seat, patience) =>
  new Promise((resolve) => {
    const free = { mode: 'exclusive', ...(patience ? { signal: AbortSignal.timeout(patience) } : { ifAvailable: true }) };
    navigator.locks
      .request(`padd.${seat}.${pad}`, free, (lock) => {
        resolve(lock !== null);
        return lock && new Promise(() => {});
      })
      .catch(() => resolve(false));
  });

/** The number of the seat that this window holds, or none where the browser has no locks. */
async function sit(pad, local, session) {
  if (!navigator.locks) return null;
  const last = session.getItem(`padd.seat.${pad}`);
  if (last !== null && (await hold(pad, Number(last), PATIENCE))) return Number(last);
  const seats = [...Array(MOST).keys()];
  const kept = (seat) => local.getItem(keptKey(pad, seat)) !== null;
  for (const seat of [...seats.filter(kept), ...seats.filter((seat) => !kept(seat))]) if (await hold(pad, seat)) return seat;
  return null;
}

export async function takeSeat(pad) {
  const [local, session] = [store('localStorage'), store('sessionStorage')];
  const seat = await sit(pad, local, session);
  const storage = seat === null ? session : local;
  const name = seat ?? 'only';
  const token = storage.getItem(tokenKey(pad, name)) ?? fresh();
  try {
    storage.setItem(tokenKey(pad, name), token);
    if (seat !== null) session.setItem(`padd.seat.${pad}`, String(seat));
  } catch {
    // this window is somebody else each time
  }
  return {
    token,
    /** What was kept, if anything. */
    kept() {
      try {
        return JSON.parse(storage.getItem(keptKey(pad, name)));
      } catch {
        return null;
      }
    },
    /** Keeps it, and answers whether it could. */
    keep(kept) {
      try {
        storage.setItem(keptKey(pad, name), JSON.stringify(kept));
        return true;
      } catch {
        return false;
      }
    },
    forget() {
      storage.removeItem(keptKey(pad, name));
    },
  };
}
