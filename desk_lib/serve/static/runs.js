// The runs of the ward: what the server says of them, and the stream of the one that is looked at.
import {get} from './api.js';
import {button, h} from './dom.js';
import {currentView, show} from './views.js';

// The runs that wait, run, or ended and were neither kept nor thrown away, by their numbers.
const runs = new Map();
const OVER = new Set(['kept', 'dropped']);
// (a run goes through its states in this order)
const STATES = ['waiting', 'running', 'stopping', 'ended', 'failed', ...OVER];
const listeners = new Set();
let stream = null;
let followed = null;

export const whenRunChanges = (listener) => listeners.add(listener);
export const allRuns = () => [...runs.values()];
/** The runs that search for repairs aren't shown among those that make the roster better. */
export const betterRuns = () => allRuns().filter((run) => run.kind !== 'repair');
export const repairRun = () => allRuns().filter((run) => run.kind === 'repair').at(-1) ?? null;
export const isAtWork = (run) => run.state === 'running' || run.state === 'stopping';
/** The run to be looked at: the one at work, or else the last that ended. */
export function mainRun() {
  const found = betterRuns().filter((run) => run.state !== 'waiting');
  return found.find(isAtWork) ?? found.at(-1) ?? null;
}

/** Takes what the server says of a run. An answer may come after an event that says something newer, which then stays. */
export function adoptRun(run) {
  const before = runs.get(run.id);
  if (before && STATES.indexOf(run.state) < STATES.indexOf(before.state)) return before;
  // (points that the stream has brought already aren't lost by an answer that was on its way)
  if (before && before.points.length > run.points.length) run = {...run, points: before.points};
  if (OVER.has(run.state)) runs.delete(run.id);
  else runs.set(run.id, {...run, heard: performance.now()});
  listeners.forEach((listener) => listener(run, before));
  return run;
}

export async function loadRuns() {
  const found = (await get('/api/runs')).runs, there = new Set(found.map((run) => run.id));
  for (const id of [...runs.keys()])
    if (!there.has(id)) runs.delete(id);
  found.forEach(adoptRun);
}

/** Seconds since a run began. */
export function elapsed(run) {
  const since = isAtWork(run) ? (performance.now() - run.heard) / 1000 : 0;
  return (run.elapsed ?? 0) + since;
}

// ---- the stream

/** Follows the run at work, or none. */
export function follow(run) {
  const id = run && isAtWork(run) ? run.id : null;
  if (id === followed) return;
  stream?.close();
  stream = null;
  followed = id;
  if (id === null) return;
  stream = new EventSource(`/api/runs/${id}/events`);
  const on = (name, take) => stream.addEventListener(name, (event) => take(JSON.parse(event.data)));
  on('best', ({t, penalty, ...numbers}) => heard(id, (now) => ({
    ...now,
    ...numbers,
    best: penalty,
    points: isNew(now.points, t) ? [...now.points, [t, penalty]] : now.points,
  })));
  on('bound', ({t, ...numbers}) => heard(id, (now) => ({...now, ...numbers, boundAt: t})));
  on('state', adoptRun);
  for (const name of ['end', 'failed', 'kept', 'dropped'])
    on(name, (last) => {
      unfollow();
      adoptRun(last);
    });
}

const isNew = (points, t) => !points.length || points.at(-1)[0] < t;

export function unfollow() {
  stream?.close();
  stream = followed = null;
}

function heard(id, change) {
  const run = runs.get(id);
  if (!run) return;
  const now = change(run);
  runs.set(id, now);
  listeners.forEach((listener) => listener(now, run));
}

// ---- the button in the head

/** A button that says how the run goes, in the head of every view. */
export function runButton() {
  const run = mainRun();
  if (!run || currentView() === 'better') return null;
  const words = run.state === 'failed' ? 'Run failed'
    : isAtWork(run) ? `Run: ${run.best ?? '…'}`
                                       : `Run ended: ${run.best ?? '–'}`;
  return button(
    [isAtWork(run) && h('span', {class: 'turning'}), words], () => show('better'), {class: 'quiet', id: 'run-button'});
}
