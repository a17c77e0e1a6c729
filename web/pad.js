// The page of a pad. It carries requests to padedit and messages to the server, and shows what padedit tells: what an edit is,
// and how edits meet, is padedit's alone.
import { hueOf, STYLES } from './attrs.js';
import { History } from './history.js';
import { Link } from './link.js';
import { canRun, Program } from './program.js';
import { takeSeat } from './seat.js';
import { PadText } from './text.js';

/** Keys with shorter pauses are typed in one go. */
const ONE_GO = 1500;
/** What is typed waits so long for more before it is sent. */
const GATHERED = 100;
/** What was sent is answered in this time, or the connection is taken for lost. */
const LONGEST_SILENCE = 30_000;
/** What isn't saved is kept each so many milliseconds, and takes at most a part of the time. */
const KEPT_EACH = 1000;
const KEPT_SHARE = 20;
/** What the server sends is refused so often in a row, and then the page gives up. */
const MOST_REFUSED = 3;

/** What each closing means. The page may come back by itself, or by a button: `again` goes on, `anew` begins from nothing. */
const CLOSED = {
  userdup: { words: 'This pad is open as you in another window, so this one has stopped.', again: 'Go on here' },
  deleted: { words: 'This pad was deleted.', anew: 'Open it anew' },
  renewed: { words: 'This pad was deleted and made anew. What you see is its former text.', anew: 'Open the new one' },
  badChangeset: { words: 'The server refused what was typed here.', anew: 'Load again without it' },
  badMessage: { words: 'The server doesn’t understand this page.', anew: 'Load again' },
  full: { words: 'This pad is full: its file takes no more.', anew: 'Load again' },
  deny: { words: 'You may not open this pad.', again: 'Try again' },
  store: { byItself: true },
};

const $ = (id) => document.getElementById(id);

const page = {
  pad: '',
  seat: null,
  program: null,
  link: null,
  text: null,
  past: null,
  state: { connected: false },
  closed: null, // why, once the server closed for good
  fault: null, // why the page can't go on
  readOnly: false,
  isShown: false,
  author: '',
  undos: [], // of how many edits each step back consists, the next one last
  redos: [],
  typed: null, // the last edit
  inbox: [], // messages that weren't heard yet
  heardOf: new Map(), // when each other author wrote last
  refused: 0,
  timers: { submit: 0, silence: 0, keep: 0 },
  pause: KEPT_EACH,
  isKept: false,
  cannotKeep: false, // the browser's storage takes no more
  said: '',
};

// ---- what is asked of padedit

/** Asks padedit, and does what its reply says. Replies come in order, and each before the next event of the browser. */
async function ask(request) {
  const reply = await page.program.ask(request);
  page.state = reply.state;
  if ('author' in reply) showPad(reply);
  else if ('text' in reply) page.past.show(reply);
  if ('change' in reply) reply.place = apply(reply);
  if ('send' in reply) page.link.send(reply.send);
  if ('closed' in reply) close(reply.closed);
  showState();
  return reply;
}

function apply({ change, pool }) {
  try {
    return page.text.apply(change, pool);
  } catch (error) {
    fail(error);
    return null;
  }
}

async function edit(told) {
  note(told);
  const reply = await ask({ do: 'edit', ...told });
  if (reply.refused) return fail(new Error(`an edit was refused: ${reply.refused}`));
  page.timers.submit ||= setTimeout(submit, GATHERED);
  keepSoon();
}

/** Sends what is due, which padedit knows: also what was sent before a connection was lost. */
async function submit() {
  clearTimeout(page.timers.submit);
  page.timers.submit = 0;
  if (!page.state.connected) return;
  const { send } = await ask({ do: 'submit' });
  if (!send) return;
  clearTimeout(page.timers.silence);
  page.timers.silence = setTimeout(() => page.state.waiting && page.link.renew(), LONGEST_SILENCE);
}

async function format(style) {
  const { text } = page;
  const isOn = !text.isOn(style);
  const { at, count } = text.selected;
  if (count === 0) {
    text.setNext(style, isOn);
  } else {
    page.undos.push(1);
    [page.redos, page.typed] = [[], null];
    await ask({ do: 'format', at, count, key: style, value: isOn ? 'true' : '' });
    submit();
  }
  showTools();
  text.cm.focus();
}

/** Takes back what was typed in one go, or makes it again: for padedit each key of it is a step. */
async function undo(what) {
  const [can, from, to] = what === 'undo' ? ['canUndo', 'undos', 'redos'] : ['canRedo', 'redos', 'undos'];
  let place = null;
  let made = 0;
  for (let due = page[from].pop() ?? 1; due > 0 && page.state[can]; due--, made++) place = (await ask({ do: what })).place ?? place;
  if (made) page[to].push(made);
  page.typed = null;
  if (place) page.text.cm.setCursor(place);
  page.text.cm.focus();
  submit();
}

/** Notes an edit: a key that goes on with the word before it is undone with it. */
function note({ at, drop, put }) {
  const last = page.typed;
  const goesOn =
    last && performance.now() - last.when < ONE_GO && !(/\s$/.test(last.put) && /\S/.test(put)) && put.length < 2 && drop < 2 &&
    (put ? at === last.end && !drop : !last.put && (at === last.end || at === last.end - 1));
  if (goesOn) page.undos.push((page.undos.pop() ?? 0) + 1);
  else page.undos.push(1);
  page.redos = [];
  page.typed = { when: performance.now(), end: at + put.length, put };
}

// ---- the connection

const isInside = () => page.state.rev !== undefined;

function opened() {
  const { pad, seat } = page;
  ask(isInside() ? { do: 'return' } : { do: 'enter', pad, token: seat.token, sessions: sessions() });
}

/** The sessions of groups that this person has, as Etherpad's cookie names them. */
function sessions() {
  const [, told = ''] = /(?:^|; )sessionID=([^;]*)/.exec(document.cookie) ?? [];
  return told.replace(/%2c/gi, ',').replace(/"|%22/g, '').split(',').filter(Boolean);
}

/** Messages wait while an input method writes. */
function came(message) {
  page.inbox.push(message);
  hearAll();
}

function hearAll() {
  if (page.text.isComposing) return;
  for (const message of page.inbox.splice(0)) hear(message);
}

async function hear(message) {
  const before = page.state.connected;
  const reply = await ask({ do: 'heard', message });
  if (reply.refused) return refuse(reply.refused, message);
  page.refused = 0;
  if (reply.by) page.heardOf.set(reply.by, Date.now());
  if (page.state.connected && (before || phase() === 'saved')) page.link.isWell();
  if (page.state.connected && !before) say(page.readOnly ? 'Connected. You may read this pad.' : 'Connected.');
  submit();
}

/** What the server sent can't be heard: another connection may do better. */
function refuse(why, message) {
  if (messageOf(message).type === 'CHANGESET_REQ') page.past.forget();
  else if (++page.refused < MOST_REFUSED) page.link.renew();
  else fail(new Error(`what the server sent can’t be heard: ${why}`));
}

function messageOf(text) {
  try {
    return JSON.parse(text) ?? {};
  } catch {
    return {};
  }
}

function lost() {
  const was = page.state.connected;
  page.inbox = [];
  clearTimeout(page.timers.silence);
  page.past.forget();
  ask({ do: 'lost' });
  if (was && !page.closed) say('The connection is lost. What you type is kept.');
}

/** The server closed. */
function close(why) {
  const { byItself } = CLOSED[why] ?? {};
  if (byItself) return page.link.renew();
  page.closed = why;
  page.link.close();
  keepNow();
}

function comeBack() {
  page.closed = null;
  showState();
  page.link.open();
}

/** What isn't saved is given up. */
function beginAnew() {
  page.seat.forget();
  page.state = { connected: false };
  location.reload();
}

/** The page can't go on. */
function fail(error) {
  page.fault ??= error.message;
  page.link?.close();
  page.text?.setReadOnly(true);
  console.error(error);
  showState();
}

// ---- what is kept through a reload

const isUnsaved = () => Boolean(page.state.waiting || page.state.unsent);

function keepSoon() {
  if (isUnsaved()) page.timers.keep ||= setTimeout(keepNow, page.pause);
}

async function keepNow() {
  clearTimeout(page.timers.keep);
  page.timers.keep = 0;
  if (!isUnsaved() || page.fault) return;
  const begun = performance.now();
  const { kept } = await ask({ do: 'keep' });
  page.isKept = kept !== undefined && page.seat.keep(kept);
  page.cannotKeep = !page.isKept;
  page.pause = Math.max(KEPT_EACH, (performance.now() - begun) * KEPT_SHARE);
}

/** All is saved: what was kept isn't needed. */
function forget() {
  if (page.isKept) page.seat.forget();
  page.isKept = false;
}

/** What a former window kept is shown before there is a connection. */
async function takeKept() {
  const kept = page.seat.kept();
  if (!kept) return;
  page.isKept = true;
  const reply = await ask({ do: 'enter', pad: page.pad, token: page.seat.token, sessions: sessions(), kept });
  if (reply.refused) page.seat.forget();
  else await ask({ do: 'lost' });
}

// ---- what is shown

function showPad({ text, attribs, pool, author, readOnly }) {
  page.author = author;
  page.readOnly = readOnly;
  page.text.own = [['author', author]];
  page.text.show(text, attribs, pool);
  page.text.setReadOnly(readOnly);
  $('main').setAttribute('aria-busy', 'false');
  if (!page.isShown) page.text.cm.focus();
  page.isShown = true;
}

const phase = () => {
  if (page.fault) return 'fault';
  if (page.closed) return 'closed';
  if (!isInside()) return 'opening';
  if (!page.state.connected) return 'offline';
  return isUnsaved() ? 'saving' : 'saved';
};

const PHASES = { fault: 'Stopped', closed: 'Stopped', opening: 'Opening …', offline: 'Not connected', saving: 'Saving …', saved: 'Saved' };

function showState() {
  const now = phase();
  if (now === 'saved') forget();
  document.documentElement.dataset.phase = now;
  setText('state', now === 'saved' && page.readOnly ? 'Read only' : PHASES[now]);
  setText('revision', isInside() ? `Revision ${page.state.rev}` : '');
  showNotice(now);
  showTools();
  page.past.showHead(page.state.rev ?? 0);
}

function showTools() {
  const mayWrite = page.isShown && !page.readOnly && !page.fault && $('history').hidden;
  const { canUndo, canRedo } = page.state;
  $('writing').hidden = page.readOnly;
  $('undo').disabled = !mayWrite || !canUndo;
  $('redo').disabled = !mayWrite || !canRedo;
  $('download').disabled = $('who').disabled = !page.isShown;
  $('past').disabled = !isInside();
  for (const button of document.querySelectorAll('[data-style]')) {
    button.disabled = !mayWrite;
    button.setAttribute('aria-pressed', String(mayWrite && page.text.isOn(button.dataset.style)));
  }
  const count = page.heardOf.size + 1;
  setText('count', page.isShown && count > 1 ? String(count) : '');
}

/** What the person has to know, and what can be done. */
function showNotice(now) {
  const ways = [];
  let words = '';
  const rescue = () => isUnsaved() && ways.push(['Copy the whole text', copy], ['Download it', download]);
  if (now === 'fault') {
    words = `This page has to be loaded again: ${page.fault}.`;
    ways.push(['Load again', () => location.reload()]);
    rescue();
  } else if (now === 'closed') {
    const told = CLOSED[page.closed] ?? { words: `The server closed: ${page.closed}.` };
    words = told.words + (isUnsaved() ? ' What you typed last isn’t saved.' : '');
    if (told.again) ways.push([told.again, comeBack]);
    rescue();
    if (told.anew) ways.push([told.anew, beginAnew]);
  } else if (now === 'offline' || (now === 'opening' && document.documentElement.dataset.lost)) {
    words = page.isShown ? 'There is no connection. You can type on: it is sent as soon as there is one.' : 'The server can’t be reached. This page tries again.';
    ways.push(['Try now', () => page.link.hurry()]);
  }
  const name = words + ways.map(([way]) => way).join();
  if (name === page.said) return;
  page.said = name;
  setText('words', words);
  $('ways').replaceChildren(...ways.map(([way, go]) => button(way, go)));
  $('notice').hidden = words === '';
  page.text?.cm.refresh();
}

function button(words, go) {
  const made = document.createElement('button');
  made.type = 'button';
  made.textContent = words;
  made.addEventListener('click', go);
  return made;
}

const setText = (id, words) => {
  if ($(id).textContent !== words) $(id).textContent = words;
};

/** Said to who can't see the page. */
const say = (words) => setText('news', words);

/** Who wrote here: this person first, then who wrote last. */
function showPeople() {
  const others = new Set([...page.heardOf.keys(), ...page.text.authors]);
  others.delete(page.author);
  const when = (id) => page.heardOf.get(id) ?? 0;
  const line = (id, words) => {
    const made = document.createElement('li');
    const colour = document.createElement('span');
    colour.className = 'colour';
    colour.style.setProperty('--hue', hueOf(id));
    made.append(colour, words);
    return made;
  };
  const told = (id) => (when(id) ? `Author ${id.slice(-4)}, wrote ${ago(when(id))}` : `Author ${id.slice(-4)}, wrote earlier`);
  const sorted = [...others].sort((a, b) => when(b) - when(a));
  $('people').replaceChildren(line(page.author, 'You'), ...sorted.map((id) => line(id, told(id))));
}

function ago(moment) {
  const minutes = Math.floor((Date.now() - moment) / 60_000);
  return minutes < 1 ? 'just now' : minutes === 1 ? 'a minute ago' : `${minutes} minutes ago`;
}

// ---- what the person does

function download() {
  const link = document.createElement('a');
  link.href = URL.createObjectURL(new Blob([page.text.text], { type: 'text/plain;charset=utf-8' }));
  link.download = `${page.pad}.txt`;
  link.click();
  setTimeout(() => URL.revokeObjectURL(link.href), 10_000);
}

async function copy() {
  try {
    await navigator.clipboard.writeText(page.text.text);
    say('Copied.');
  } catch {
    page.text.cm.execCommand('selectAll');
    page.text.cm.focus();
    say('The whole text is selected. Copy it by Control C.');
  }
}

function toggle(id, panel) {
  const isOpen = $(id).getAttribute('aria-expanded') !== 'true';
  $(id).setAttribute('aria-expanded', String(isOpen));
  $(panel).hidden = !isOpen;
  return isOpen;
}

function togglePast() {
  if (toggle('past', 'history')) return page.past.open(page.state.rev);
  page.past.close();
  page.text.cm.refresh();
  page.text.cm.focus();
  showTools();
}

/** The arrows go from button to button, as in every toolbar. */
function stepThroughTools(event) {
  const by = { ArrowRight: 1, ArrowLeft: -1 }[event.key];
  if (!by) return;
  const all = [...document.querySelectorAll('.tools button:enabled')].filter((it) => it.checkVisibility());
  all.at((all.indexOf(document.activeElement) + by) % all.length).focus();
  event.preventDefault();
}

function listen() {
  for (const it of document.querySelectorAll('[data-style]')) it.addEventListener('click', () => format(it.dataset.style));
  // a button of the tools leaves the selection in the text
  document.querySelector('.tools').addEventListener('mousedown', (event) => event.preventDefault());
  $('undo').addEventListener('click', () => undo('undo'));
  $('redo').addEventListener('click', () => undo('redo'));
  $('download').addEventListener('click', download);
  $('who').addEventListener('click', () => toggle('who', 'people') && showPeople());
  $('people').addEventListener('keydown', (event) => event.key === 'Escape' && toggle('who', 'people'));
  $('past').addEventListener('click', togglePast);
  $('back').addEventListener('click', togglePast);
  $('history').addEventListener('keydown', (event) => event.key === 'Escape' && togglePast());
  document.querySelector('.tools').addEventListener('keydown', stepThroughTools);
  addEventListener('pagehide', keepNow);
  document.addEventListener('visibilitychange', () => document.visibilityState === 'hidden' && keepNow());
  addEventListener('beforeunload', (event) => {
    if (isUnsaved()) keepNow();
    if (isUnsaved() && page.cannotKeep) event.preventDefault();
  });
  // the browser's own undo, as of its menu, would go past padedit
  page.text.cm.getInputField().addEventListener('beforeinput', (event) => {
    if (!event.inputType.startsWith('history')) return;
    event.preventDefault();
    undo(event.inputType === 'historyUndo' ? 'undo' : 'redo');
  });
}

const KEYS = {};
for (const control of ['Ctrl', 'Cmd']) {
  const keys = { B: 'bold', I: 'italic', U: 'underline' };
  for (const [key, style] of Object.entries(keys)) KEYS[`${control}-${key}`] = () => format(style);
  KEYS[`Shift-${control}-X`] = () => format('strikethrough');
  KEYS[`${control}-Z`] = () => undo('undo');
  KEYS[`Shift-${control}-Z`] = KEYS[`${control}-Y`] = () => undo('redo');
}

// ---- where it begins

/** The pad that the address names: /p/NAME, or ?pad=NAME. */
function padOf({ pathname, search }) {
  const named = new URLSearchParams(search).get('pad');
  if (named) return named;
  try {
    return decodeURIComponent(/\/p\/([^/]+)$/.exec(pathname)?.[1] ?? '');
  } catch {
    return '';
  }
}

/** Where the server is: beside the page, or where ?server= says. It is told the pad too, by which a proxy may choose a server. */
function serverOf({ href, search }, pad) {
  const told = new URLSearchParams(search).get('server');
  const url = new URL(told || '../pads/', href);
  if (!told) url.protocol = url.protocol === 'https:' ? 'wss:' : 'ws:';
  url.searchParams.set('pad', pad);
  return url.href;
}

function showStart() {
  $('start').hidden = false;
  const go = (name) => location.assign(`${new URL('../p/', location.href).pathname}${encodeURIComponent(name)}${location.search}`);
  $('start').addEventListener('submit', (event) => {
    event.preventDefault();
    go($('wanted').value.trim());
  });
  $('fresh').addEventListener('click', () => go(Math.random().toString(36).slice(2, 12)));
  $('wanted').focus();
}

async function begin() {
  $('head').hidden = $('main').hidden = false;
  setText('name', page.pad);
  document.title = page.pad;
  page.text = new PadText($('text'), { label: 'Text of the pad', readOnly: true, typed: edit, moved: () => page.isShown && showTools(), settled: hearAll, keys: KEYS });
  page.past = new History({ ask: (to) => ask({ do: 'slide', to }) });
  page.program = await Program.start(new URL('padedit.wasm', import.meta.url), (why) => fail(new Error(why)));
  page.seat = await takeSeat(page.pad);
  const lostOnce = () => {
    document.documentElement.dataset.lost = 'true';
    lost();
  };
  page.link = new Link(serverOf(location, page.pad), { opened, message: came, lost: lostOnce });
  listen();
  await takeKept();
  showState();
  page.link.open();
}

page.pad = padOf(location);
if (!page.pad) {
  showStart();
} else if (!canRun()) {
  setText('words', 'This browser can’t run the pad. Chromium and Chrome from 137 on, Edge from 137 on and Firefox from 153 on can.');
  $('notice').hidden = false;
} else {
  begin().catch((error) => {
    setText('words', `The page could not begin: ${error.message}.`);
    $('notice').hidden = false;
  });
}
