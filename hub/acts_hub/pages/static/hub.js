// What a page does by itself: it follows changes, counts times on, and opens windows of a log. Without it every page still works, by its links and forms.
'use strict';

const live = document.getElementById('live');
const say = words => { const place = document.getElementById('news'); if (place) place.textContent = words; };

function tell(state, words) {
  if (!live) return;
  live.dataset.state = state;
  live.textContent = words;
}

// ---- times

const UNITS = [['year', 31536000], ['month', 2592000], ['day', 86400], ['hour', 3600], ['minute', 60], ['second', 1]];

function ago(seconds) {
  const [name, length] = UNITS.find(([, length]) => seconds >= length) ?? ['', 0];
  const count = Math.floor(seconds / length);
  return length ? `${count} ${name}${count === 1 ? '' : 's'} ago` : 'now';
}

function lasted(seconds) {
  const [d, h, m, s] = [Math.floor(seconds / 86400), Math.floor(seconds / 3600) % 24, Math.floor(seconds / 60) % 60, seconds % 60];
  return d ? `${d}d ${h}h` : h ? `${h}h ${m}m ${s}s` : m ? `${m}m ${s}s` : `${s}s`;
}

function countOn() {
  const now = Date.now();
  for (const place of document.querySelectorAll('time[data-ago]')) place.textContent = ago(Math.floor((now - Date.parse(place.dateTime)) / 1000));
  for (const place of document.querySelectorAll('[data-since]')) place.textContent = lasted(Math.max(0, Math.round((now - Number(place.dataset.since)) / 1000)));
}
setInterval(countOn, 1000);

// ---- changes: the page is asked for again, and the parts that are marked as live take the place of the old ones

let asking = false, again = false, took = 0;

function keepFolds(old, fresh) {
  for (const fold of old.querySelectorAll('details[id]')) {
    const other = fresh.querySelector(`#${CSS.escape(fold.id)}`);
    if (other) other.open = fold.open;
  }
}

function focusIn(part) {
  const there = document.activeElement;
  if (!part.contains(there) || there === part) return null;
  if (there.id) return `#${CSS.escape(there.id)}`;
  return there.getAttribute('href') ? `a[href="${CSS.escape(there.getAttribute('href'))}"]` : null;
}

function replaceParts(fresh) {
  for (const part of document.querySelectorAll('[data-live]')) {
    const other = fresh.getElementById(part.id);
    if (!other) { part.replaceChildren(); continue; }
    if (other.innerHTML === part.innerHTML || part.querySelector('form :focus')) continue;
    const focused = focusIn(part);
    keepFolds(part, other);
    part.replaceChildren(...document.adoptNode(other).childNodes);
    if (focused) part.querySelector(focused)?.focus({ preventScroll: true });
  }
  const news = fresh.getElementById('summary')?.textContent ?? '';
  if (news && document.body.dataset.summary !== news) {
    say(news);
    document.body.dataset.summary = news;
  }
  if (fresh.title) document.title = fresh.title;
}

async function renew() {
  if (asking) { again = true; return; }
  asking = true;
  const began = performance.now();
  try {
    const answer = await fetch(location.href, { cache: 'no-store', headers: { 'X-Live': '1' } });
    if (answer.ok) replaceParts(new DOMParser().parseFromString(await answer.text(), 'text/html'));
    countOn();
  } catch {
    tell('off', 'no answer: what is shown may be older');
  }
  took = performance.now() - began;
  setTimeout(() => { asking = false; if (again) { again = false; renew(); } }, Math.min(3000, Math.max(150, 2 * took)));
}

// Listens to a stream of events while the page is seen: a browser has few connections to a host. `handlers` may say that it is over, by true.
function listen(address, handlers, opened) {
  let source = null, last = '', over = false;
  const close = () => { source?.close(); source = null; };
  const open = () => {
    if (over || source || document.hidden) return;
    source = new EventSource(last ? `${address.split('?')[0]}?from=${encodeURIComponent(last)}` : address);
    source.addEventListener('open', opened);
    source.addEventListener('error', () => tell('off', 'no connection: what is shown may be older'));
    for (const [name, handler] of Object.entries(handlers)) {
      source.addEventListener(name, event => {
        last = event.lastEventId || last;
        if (handler(event)) { over = true; close(); }
      });
    }
  };
  document.addEventListener('visibilitychange', () => { if (document.hidden) close(); else open(); });
  addEventListener('pagehide', close);
  addEventListener('pageshow', open);
  open();
}

function follow(address) {
  let isFirst = true;
  listen(address, { changed: () => { renew(); } }, () => {
    tell('on', 'live');
    if (!isFirst) renew();
    isFirst = false;
  });
}

// ---- a log: windows of lines, and lines that come

const MOST_LINES = 2000; // of a step that are in the page at a time
const log = document.getElementById('log');
const stepOf = number => document.getElementById(`step:${number}`);

async function fill(step, line) {
  const place = step.querySelector('.lines');
  const answer = await fetch(`${log.dataset.lines}?step=${step.dataset.step}${line ? `&line=${line}` : ''}`, { cache: 'no-store' });
  if (!answer.ok) { place.textContent = `These lines can't be had (${answer.status}).`; return; }
  const fresh = new DOMParser().parseFromString(await answer.text(), 'text/html');
  place.replaceChildren(...document.adoptNode(fresh.body).childNodes);
  step.dataset.filled = 'yes';
  follow_more(step);
}

function follow_more(step) {
  for (const link of step.querySelectorAll('a[data-line]')) {
    link.addEventListener('click', async event => {
      event.preventDefault();
      await fill(step, link.dataset.line);
      step.querySelector('.l > a')?.focus();
    });
  }
}

async function showHash() {
  const found = /^#step:(\d+):(\d+)$/.exec(decodeURIComponent(location.hash));
  const step = found && stepOf(found[1]);
  if (!step) return;
  step.open = true;
  const id = `step:${found[1]}:${found[2]}`;
  if (!document.getElementById(id)) await fill(step, found[2]);
  for (const other of log.querySelectorAll('.here')) other.classList.remove('here');
  const line = document.getElementById(id);
  if (!line) return;
  for (let fold = line.closest('details.group'); fold; fold = fold.parentElement.closest('details.group')) fold.open = true;
  line.classList.add('here');
  line.scrollIntoView({ block: 'center' });
}

function trim(place) {
  const lines = place.querySelectorAll('.l');
  for (let at = 0; at < lines.length - MOST_LINES; at++) {
    const group = lines[at].closest('details.group');
    lines[at].remove();
    if (group && !group.querySelector('.l')) group.remove();
  }
}

// Puts lines that have come at the end of a step; those that are there already are left out.
function takeLines(step, fresh) {
  const place = step.querySelector('.lines'), isAtEnd = innerHeight + scrollY >= document.documentElement.scrollHeight - 80;
  for (const part of [...fresh.body.children]) {
    if (document.getElementById(part.id)) continue;
    const group = part.dataset.group && document.getElementById(part.dataset.group);
    (group || place).append(document.adoptNode(part));
  }
  trim(place);
  if (isAtEnd && step.open) scrollTo(0, document.documentElement.scrollHeight);
}

function followLog(address) {
  const lines = event => {
    const told = JSON.parse(event.data), step = stepOf(told.step);
    if (!step) renewSteps();
    else if (told.skipped) fill(step, '');
    else if (step.dataset.filled === 'yes') takeLines(step, new DOMParser().parseFromString(told.html, 'text/html'));
  };
  const end = () => {
    tell('done', 'the job has ended');
    renewSteps();
    return true;
  };
  listen(address, { lines, steps: () => { renewSteps(); }, end }, () => tell('on', 'live'));
}

// Steps that have begun or ended: their heads are taken from the page as it is now, lines stay. One look at a time.
let looking = null, lookAgain = false;

function renewSteps() {
  if (looking) { lookAgain = true; return; }
  lookAgain = false;
  looking = lookAtSteps().catch(() => tell('off', 'no answer: what is shown may be older')).finally(() => {
    looking = null;
    if (lookAgain) renewSteps();
  });
}

async function lookAtSteps() {
  const answer = await fetch(location.href, { cache: 'no-store', headers: { 'X-Live': '1' } });
  if (!answer.ok) return;
  const fresh = new DOMParser().parseFromString(await answer.text(), 'text/html');
  const steps = document.getElementById('steps');
  for (const other of fresh.querySelectorAll('.step')) {
    const step = document.getElementById(other.id);
    if (step) step.querySelector('summary').replaceWith(document.adoptNode(other.querySelector('summary')));
    else prepare(steps.appendChild(document.adoptNode(other)));
  }
  replaceParts(fresh);
}

function prepare(step) {
  step.addEventListener('toggle', () => { if (step.open && step.dataset.filled !== 'yes') fill(step, ''); });
  follow_more(step);
}

// ---- begin

document.body.dataset.summary = document.getElementById('summary')?.textContent ?? '';
if (innerWidth > 900) for (const fold of document.querySelectorAll('.side-fold')) fold.open = true;
for (const box of document.querySelectorAll('[data-toggles]')) {
  const set = () => document.getElementById(box.dataset.for).classList.toggle(box.dataset.toggles, box.checked);
  box.addEventListener('change', set);
  set();
}
document.addEventListener('submit', event => { if (event.target.dataset.sure && !confirm(event.target.dataset.sure)) event.preventDefault(); });  // (lists come anew)
if (document.body.dataset.changes) follow(document.body.dataset.changes);
if (document.body.dataset.every) setInterval(() => { if (!document.hidden) renew(); }, 1000 * document.body.dataset.every);
if (log) {
  for (const step of log.querySelectorAll('.step')) prepare(step);
  addEventListener('hashchange', showHash);
  showHash();
  if (log.dataset.events) followLog(log.dataset.events);
}
countOn();
