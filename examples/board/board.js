'use strict';
// What the view port shows, and what changes of it. The address behind # says which view, so a link to it stays: #/runs?status=completed, #/runs/17, #/queue,
// #/runners, #/groups?repo=octo/hello.

const PAGE = 50, WAIT = 30; // rows of a list, and seconds that the service may wait for a change
const PAUSE = 1000, AGAIN = 3000, QUIET = 15000; // milliseconds between two looks while things change, after a fault, and while nothing changes
const AT_ONCE = 20; // runs that are looked at one by one; beyond that the list is read again
const SIGNS = { pending: '·', waiting: '·', blocked: '·', queued: '○', ready: '○', in_progress: '▸', open: '▸', running: '▸', stopping: '■', success: '✓', failure: '✗',
  cancelled: '–', skipped: '–' };
const STATES = ['pending', 'queued', 'in_progress', 'completed'], CONCLUSIONS = ['success', 'failure', 'cancelled'];

// ---- the service

class Fault extends Error {
  constructor(status, message) {
    super(message);
    this.status = status;
  }
}

async function ask(path, parameters = {}) {
  const words = Object.entries(parameters).filter(([, value]) => value !== '' && value != null).map(([name, value]) => `${name}=${encodeURIComponent(value)}`);
  const answer = await fetch(path + (words.length ? `?${words.join('&')}` : ''), { cache: 'no-store' });
  if (answer.ok) return answer;
  const said = await answer.json().catch(() => ({}));
  throw new Fault(answer.status, said.message || `${answer.status} for ${path}`);
}

async function get(path, parameters) {
  return (await ask(path, parameters)).json();
}

// The lines of changes, of which the last one is the cursor.
async function changes(parameters) {
  const text = await (await ask('changes', parameters)).text();
  return text.trim().split('\n').map(line => JSON.parse(line));
}

// All rows of a list, page by page, until there are as many as are wanted. `next` is null, or where the list goes on.
async function rowsOf(path, list, member, parameters, most) {
  let rows = [], next = null;
  do {
    const page = await get(path, next === null ? parameters : { ...parameters, [member]: next });
    rows = rows.concat(page[list]);
    next = page[member];
  } while (next !== null && rows.length < most);
  return { rows, next };
}

async function wholeRun(id) {
  const run = await get(`runs/${id}`);
  while (run.from !== null) {
    const more = await get(`runs/${id}`, { from: run.from });
    run.jobs.push(...more.jobs);
    run.from = more.from;
  }
  return run;
}

// The rows by the values that a function gives of them.
function grouped(rows, valueOf) {
  const groups = new Map();
  for (const row of rows) groups.set(valueOf(row), [...groups.get(valueOf(row)) ?? [], row]);
  return groups;
}

// ---- the page

function box(tag, members, ...inside) {
  const made = document.createElement(tag);
  for (const [name, value] of Object.entries(members)) if (value != null && value !== false) made.setAttribute(name, value === true ? '' : value);
  made.append(...inside.filter(it => it != null));
  return made;
}

const link = (to, ...inside) => box('a', { href: to }, ...inside);
const spaced = word => word.replace('_', ' ');
const stateOf = run => run.status === 'completed' ? run.conclusion : run.status;
const nameOf = run => run.workflow || run.path.split('/').pop();
const branchOf = run => (run.ref || '').replace(/^refs\/(heads|tags)\//, '');
const counted = (count, what) => `${count} ${what}${count === 1 ? '' : 's'}`;

function mark(state) {
  return box('span', { class: `state ${state}` }, box('span', { 'aria-hidden': 'true' }, `${SIGNS[state]} `), spaced(state));
}

function since(seconds) {
  if (seconds === null) return 'not since the service began';
  const [unit, name] = [[86400, 'days'], [3600, 'h'], [60, 'min'], [1, 's']].find(([unit]) => seconds >= unit || unit === 1);
  return `${Math.floor(seconds / unit)} ${name} ago`;
}

function table(caption, heads, rows) {
  const head = box('thead', {}, box('tr', {}, ...heads.map(name => box('th', { scope: 'col' }, name))));
  const body = box('tbody', {}, ...rows.map(cells => box('tr', {}, ...cells.map((cell, place) =>
    place ? box('td', { 'data-of': heads[place] }, ...[cell].flat()) : box('th', { scope: 'row' }, ...[cell].flat())))));
  return box('table', {}, box('caption', {}, caption), head, body);
}

// Puts new content in place, and the focus where it was.
function put(...inside) {
  const main = document.getElementById('main'), there = document.activeElement;
  const focused = main.contains(there) && (there.id ? `#${CSS.escape(there.id)}` : there.getAttribute('href') && `a[href="${CSS.escape(there.getAttribute('href'))}"]`);
  const typed = [...main.querySelectorAll('input, select')].map(field => [field.id, field.value]);
  main.replaceChildren(...inside.filter(it => it != null));
  if (there.closest?.('form')) for (const [id, value] of typed) if (document.getElementById(id)) document.getElementById(id).value = value;
  if (focused) main.querySelector(focused)?.focus({ preventScroll: true });
}

function moreButton(next, more) {
  if (next === null) return null;
  const button = box('button', { type: 'button', id: 'more' }, 'Show more');
  button.addEventListener('click', more);
  return button;
}

// A form whose fields become the parameters of the view.
function filters(view, fields) {
  const form = box('form', { 'aria-label': 'Filters' }, ...fields, box('button', {}, 'Show'));
  form.addEventListener('submit', event => {
    event.preventDefault();
    go(view, Object.fromEntries(new FormData(form)));
  });
  return form;
}

function field(label, name, value, choices) {
  const made = choices ? box('select', { name, id: name }, box('option', { value: '' }, 'any'), ...choices.map(it => box('option', { value: it, selected: it === value }, spaced(it))))
    : box('input', { name, id: name, value, autocomplete: 'off' });
  return box('label', {}, label, made);
}

function go(view, parameters) {
  const words = Object.entries(parameters).filter(([, value]) => value).map(([name, value]) => `${name}=${encodeURIComponent(value)}`);
  location.hash = `#/${view}${words.length ? `?${words.join('&')}` : ''}`;
}

// ---- runs

const runs = { rows: new Map(), next: null, newest: 0, older: new Set() };

// The parameters of /runs: a branch is written without refs/heads/.
function wantedOf(parameters) {
  const { branch, ...others } = parameters;
  return branch ? { ...others, ref: branch.startsWith('refs/') ? branch : `refs/heads/${branch}` } : others;
}

function fits(run, wanted) {
  const members = { ...run, repo: run.repository };
  return Object.entries(wanted).every(([name, value]) => !value || members[name] === value);
}

// The newest runs, and the older ones that go on; those that go on with their jobs.
async function listRuns(parameters, most = PAGE) {
  const wanted = wantedOf(parameters), { rows, next } = await rowsOf('runs', 'runs', 'before', { ...wanted, limit: PAGE }, most);
  const older = next === null || wanted.status ? [] : (await Promise.all(STATES.slice(0, 3).map(status =>
    rowsOf('runs', 'runs', 'before', { ...wanted, status, before: next, limit: PAGE }, PAGE)))).flatMap(page => page.rows);
  const known = runs.rows;
  Object.assign(runs, { rows: new Map(), next, older: new Set(older.map(run => run.run)), newest: Math.max(0, ...rows.map(run => run.run)) });
  for (const run of [...rows, ...older]) runs.rows.set(run.run, { ...run, jobs: known.get(run.run)?.jobs });
  await lookAt([...runs.rows.values()].filter(run => run.status !== 'completed').slice(0, AT_ONCE).map(run => run.run), wanted);
}

// A run, or null if it is forgotten.
async function oneRun(id) {
  try {
    return await get(`runs/${id}`);
  } catch (fault) {
    if (fault.status === 404) return null;
    throw fault;
  }
}

// Looks at single runs anew, and takes those out that are forgotten, or that the filters leave out.
async function lookAt(ids, wanted) {
  for (const [at, run] of (await Promise.all(ids.map(oneRun))).entries()) {
    if (run === null || !fits(run, wanted)) runs.rows.delete(ids[at]);
    else {
      if (!runs.rows.has(run.run) && run.run < runs.newest) runs.older.add(run.run);
      runs.newest = Math.max(runs.newest, run.run);
      runs.rows.set(run.run, run);
    }
  }
}

// Takes the runs out that lines say are forgotten.
function forget(lines) {
  for (const line of lines.filter(it => it.type === 'forgotten')) {
    for (const id of runs.rows.keys()) if (id <= line.through) runs.rows.delete(id);
  }
}

// After changes: the runs that changed, and those that go on.
async function followRuns(parameters, changed) {
  const wanted = wantedOf(parameters), open = [...runs.rows.values()].filter(run => run.status !== 'completed').map(run => run.run);
  const ids = [...new Set([...changed, ...open.slice(0, AT_ONCE)])];
  if (ids.length > 2 * AT_ONCE) await listRuns(parameters, runs.rows.size - runs.older.size);
  else await lookAt(ids, wanted);
}

function jobBox(job) {
  const ended = job.legs.filter(leg => ['success', 'failure', 'cancelled'].includes(leg.state)).length;
  const legs = job.legs.length > 1 ? ` ${ended} of ${job.legs.length}` : '';
  return box('span', { class: `job ${job.state}` }, `${job.id}: `, box('span', { 'aria-hidden': 'true' }, `${SIGNS[job.state]} `), `${job.state}${legs}`);
}

function aboutRun(run) {
  return [run.repository, branchOf(run), run.event, `no. ${run.number}`, run.attempt > 1 ? `attempt ${run.attempt}` : null].filter(Boolean).join(' · ');
}

function runBox(run) {
  const state = stateOf(run), jobs = run.status !== 'completed' && run.jobs ? run.jobs : [];
  const waits = run.waits_for ? box('small', {}, 'waits for the group ', groupLink(run, run.waits_for.group)) : null;
  return box('li', { class: `run ${state}`, id: `run-${run.run}` }, mark(state),
    box('div', {}, box('h2', {}, link(`#/runs/${run.run}`, `${nameOf(run)}, run ${run.run}`)), box('small', {}, aboutRun(run)), waits),
    box('div', { class: 'jobs' }, ...jobs.map(jobBox)));
}

function groupLink(run, group) {
  return link(`#/groups?repo=${encodeURIComponent(run.repository)}&group=${encodeURIComponent(group)}`, group);
}

function runsPage(parameters) {
  const all = [...runs.rows.values()].sort((a, b) => b.run - a.run), older = all.filter(run => runs.older.has(run.run));
  const fields = [field('State', 'status', parameters.status, STATES), field('Ended with', 'conclusion', parameters.conclusion, CONCLUSIONS),
    field('Repository', 'repo', parameters.repo), field('Branch', 'branch', parameters.branch), field('Workflow file', 'path', parameters.path)];
  const more = moreButton(runs.next, () => refresh(() => listRuns(parameters, runs.rows.size - runs.older.size + PAGE)));
  const list = rows => box('ol', { class: 'runs' }, ...rows.map(runBox));
  return [box('h1', {}, 'Runs'), filters('runs', fields), all.length ? list(all.filter(run => !runs.older.has(run.run))) : box('p', {}, 'There are none.'), more,
    ...older.length ? [box('h3', {}, 'Older runs that go on, or were run again'), list(older)] : []];
}

// ---- one run

let shown = null;

// A run, with the holders of the groups that it waits for.
async function loadRun(id) {
  const run = await wholeRun(id), holders = new Map();
  const groups = new Set([run, ...run.jobs.flatMap(job => job.legs)].map(it => it.waits_for).filter(wait => wait?.for === 'group').map(wait => wait.group));
  for (const group of [...groups].slice(0, 10)) {
    const { rows } = await rowsOf('groups', 'groups', 'from', { repo: run.repository, group }, 2);
    holders.set(group, rows.find(holder => holder.state === 'in_progress'));
  }
  shown = { run, holders };
}

function holderOf(holder) {
  if (!holder) return [];
  const leg = holder.job === null ? '' : `, ${holder.job}, leg ${holder.leg}`;
  return [', which ', link(`#/runs/${holder.run}`, `run ${holder.run}`), `${leg} holds`];
}

// Why something waits, in words.
function reason(run, wait, labels, holders) {
  if (!wait) return [];
  if (wait.for === 'group') return ['the group ', groupLink(run, wait.group), ...holderOf(holders.get(wait.group))];
  if (wait.for === 'max_parallel') return [`another leg of the job: ${wait.max_parallel} at a time (max-parallel)`];
  return ['a runner with the labels ', link('#/queue', labels.join(', '))];
}

function whyBlocked(run, job, states) {
  const needed = job.needs.filter(id => ['blocked', 'open', undefined].includes(states.get(id)));
  return needed.length ? `it waits for ${needed.join(', ')}` : run.status === 'pending' ? "it waits for the run's group" : '';
}

function jobPart(run, job, states, holders) {
  const notes = [job.needs.length ? `needs ${job.needs.join(', ')}` : '', job.max_parallel === null ? '' : `max-parallel ${job.max_parallel}`,
    job.state === 'blocked' ? whyBlocked(run, job, states) : ''].filter(Boolean).join('; ');
  const rows = job.legs.map(leg => [String(leg.leg), Object.keys(leg.combination).length ? box('code', {}, JSON.stringify(leg.combination)) : '', mark(leg.state),
    leg.runner ? link(`#/runners?name=${encodeURIComponent(leg.runner)}`, leg.runner) : '', reason(run, leg.waits_for, leg.labels, holders)]);
  return [box('h3', {}, `${job.id} `, mark(job.state), notes ? box('small', {}, ` (${notes})`) : ''),
    rows.length ? table(`Legs of ${job.id}`, ['Leg', 'Combination', 'State', 'Runner', 'Waits for'], rows) : ''];
}

function runPage() {
  const { run, holders } = shown, states = new Map(run.jobs.map(job => [job.id, job.state]));
  const facts = [['State', [mark(stateOf(run)), run.stopping && run.status !== 'completed' ? ' (it is to stop)' : '']],
    ['Waits for', reason(run, run.waits_for, [], holders)], ['Repository', run.repository], ['Workflow', run.path], ['Branch', branchOf(run)], ['Event', run.event],
    ['Delivery', run.delivery], ['Number', String(run.number)], ['Attempt', String(run.attempt)], ['Group', run.group ? groupLink(run, run.group) : '']];
  const list = facts.filter(([, value]) => value && value.length !== 0).flatMap(([name, value]) => [box('dt', {}, name), box('dd', {}, ...[value].flat())]);
  return [box('h1', {}, `${nameOf(run)}, run ${run.run}`), box('dl', {}, ...list), ...run.jobs.flatMap(job => jobPart(run, job, states, holders))];
}

// ---- queue, runners, groups

const lists = { rows: [], next: null };

const loader = (path, list, member, names) => async (parameters, most = PAGE) => {
  const wanted = Object.fromEntries(names.map(name => [name, parameters[name]]));
  Object.assign(lists, await rowsOf(path, list, member, { ...wanted, limit: PAGE }, most));
};

function moreOf(load, parameters) {
  return moreButton(lists.next, () => refresh(() => load(parameters, lists.rows.length + PAGE)));
}

function legLink(of) {
  return link(`#/runs/${of.run}`, `run ${of.run}, ${of.job}, leg ${of.leg}`);
}

function queuePage(parameters) {
  const byLabels = grouped(lists.rows, ready => ready.labels.join(', '));
  const rows = [...byLabels].map(([labels, ready]) => [labels, counted(ready.length, 'leg'), ready.slice(0, 10).flatMap((leg, place) => [place ? '; ' : '', legLink(leg)])]);
  return [box('h1', {}, 'Queue'), rows.length ? table('Ready legs by the labels that a runner needs', ['Labels', 'Ready', 'Oldest'], rows) : box('p', {}, 'No leg is ready.'),
    moreOf(loadQueue, parameters)];
}

function runnersPage(parameters) {
  const rows = lists.rows.map(runner => [runner.runner, runner.lease ? legLink(runner.lease) : 'no leg', since(runner.heard_seconds_ago)]);
  return [box('h1', {}, 'Runners'), filters('runners', [field('Name begins with', 'name', parameters.name)]),
    rows.length ? table('Runners by name', ['Runner', 'At work on', 'Heard'], rows) : box('p', {}, 'There are none.'), moreOf(loadRunners, parameters)];
}

function groupsPage(parameters) {
  const byGroup = grouped(lists.rows, holder => `${holder.repository}\n${holder.group}`);
  const who = (holders, state) => holders.filter(holder => holder.state === state).map(holder => holder.job === null ? link(`#/runs/${holder.run}`, `run ${holder.run}`) : legLink(holder));
  const rows = [...byGroup.values()].map(holders => [holders[0].group, holders[0].repository, who(holders, 'in_progress'), who(holders, 'pending')]);
  return [box('h1', {}, 'Concurrency groups'), filters('groups', [field('Repository', 'repo', parameters.repo), field('Group', 'group', parameters.group)]),
    rows.length ? table('Groups in use', ['Group', 'Repository', 'In progress', 'Pending'], rows) : box('p', {}, 'There are none.'), moreOf(loadGroups, parameters)];
}

const loadQueue = loader('queue', 'queue', 'from', []), loadRunners = loader('runners', 'runners', 'after', ['name']);
const loadGroups = loader('groups', 'groups', 'from', ['repo', 'group']);

// ---- what is shown, and what changes

// Each view: how it is loaded, what is done once things have changed, and its page.
const VIEWS = {
  runs: { title: 'Runs', load: listRuns, follow: followRuns, page: runsPage },
  run: { title: 'Run', load: ({ id }) => loadRun(id), follow: ({ id }) => loadRun(id), page: runPage },
  queue: { title: 'Queue', load: loadQueue, follow: parameters => loadQueue(parameters, lists.rows.length), page: queuePage },
  runners: { title: 'Runners', load: loadRunners, follow: parameters => loadRunners(parameters, lists.rows.length), page: runnersPage },
  groups: { title: 'Groups', load: loadGroups, follow: parameters => loadGroups(parameters, lists.rows.length), page: groupsPage },
};
let view = VIEWS.runs, parameters = {}, turn = 0, cursor = null;

function readAddress() {
  const [, name = 'runs', id, query = ''] = location.hash.match(/^#\/([a-z]+)(?:\/([0-9]+))?(?:\?(.*))?$/) ?? [];
  view = id && name === 'runs' ? VIEWS.run : VIEWS[name] ?? VIEWS.runs;
  parameters = { ...Object.fromEntries(new URLSearchParams(query)), ...id ? { id } : {} };
  for (const entry of document.querySelectorAll('nav a')) {
    if (entry.getAttribute('href') === `#/${name}`) entry.setAttribute('aria-current', 'page');
    else entry.removeAttribute('aria-current');
  }
}

function tell(words, away = false) {
  const state = document.getElementById('state');
  state.className = away ? 'away' : '';
  state.textContent = words;
}

// Loads something and shows the view, unless another view was chosen meanwhile.
async function refresh(load) {
  const mine = turn;
  try {
    await load();
    if (mine !== turn) return;
    put(...view.page(parameters));
    document.title = document.querySelector('h1')?.textContent ?? view.title;
    tell(`as of ${new Date().toLocaleTimeString()}`);
  } catch (fault) {
    if (mine !== turn) return;
    if (fault.status === 404 || fault.status === 400) put(box('h1', {}, view.title), box('p', {}, fault.message));
    else throw fault;
  }
}

async function open() {
  turn++;
  readAddress();
  lists.rows = [];
  try {
    await refresh(() => view.load(parameters));
  } catch (fault) {
    tell(`no answer: ${fault.message}; what is shown is older`, true);
  }
}

const pause = milliseconds => new Promise(done => setTimeout(done, milliseconds));
const isSeen = () => document.hidden ? new Promise(done => document.addEventListener('visibilitychange', done, { once: true })) : null;

// Says which runs have ended, for those who do not see the page.
function announce(lines) {
  const ended = lines.filter(line => line.run && line.status === 'completed').slice(-3);
  if (ended.length) document.getElementById('news').textContent = ended.map(line => `Run ${line.run}: ${line.conclusion}`).join('. ');
}

async function followOnce() {
  if (cursor === null) {
    cursor = (await changes()).at(-1).cursor;
    return refresh(() => view.load(parameters));
  }
  const lines = await changes({ after: cursor, wait: WAIT }), changed = lines.filter(line => line.run).map(line => line.run);
  cursor = lines.at(-1).cursor;
  forget(lines);
  const touched = lines.some(line => line.command && !['look', 'fetch'].includes(line.command.name));
  if (touched || view === VIEWS.runners) await refresh(() => view.follow(parameters, [...new Set(changed)]));
  else tell(`as of ${new Date().toLocaleTimeString()}`);
  announce(lines);
  return pause(PAUSE);
}

// Follows the changes without end. A cursor that is not known any more is that of a service that has begun anew: then all is read again.
async function follow() {
  for (;;) {
    await isSeen();
    try {
      await followOnce();
    } catch (fault) {
      if (fault.status === 410) cursor = null;
      else {
        tell(`no answer: ${fault.message}; what is shown is older`, true);
        await pause(AGAIN);
      }
    }
  }
}

addEventListener('hashchange', async () => {
  await open();
  document.getElementById('main').focus();
});
document.getElementById('skip').addEventListener('click', event => {
  event.preventDefault();
  document.getElementById('main').focus();
});
readAddress();
follow();
