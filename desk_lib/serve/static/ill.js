// Somebody is ill: who and when, who may take each open shift, repairs side by side, and whom to call.
import {Refused, get, send} from './api.js';
import {change, isLocked, loadDay} from './changes.js';
import {$, ask, button, fill, h, named, plural, say, signed, table, toast} from './dom.js';
import {adoptRun, follow, isAtWork, loadRuns, repairRun, unfollow, whenRunChanges} from './runs.js';
import {currentView, register} from './views.js';
import {
  chip, choiceAt, choiceText, dayChanges, dayOf, dayText, daysText, isPast, isShown, marksAt, month, nameOf, nearToday,
  nurses, shiftName, version,
} from './ward.js';

const SHOWN = 14, SECONDS = 10, NURSES = 4, DAYS = 5;
// Those who are ill, as they are being entered; and what the server said of the open shifts, the repairs and the calls.
let absences = [];
const known = {
  open: [],
  candidates: [],
  calls: [],
  callsOf: null,
  takers: new Map(),
  marked: '',
  version: null
};

// ---- 1: who, and which days

const monday = (day) => day - (day % 7);

function newAbsence(given = {}) {
  const first = Math.max(given.first ?? nearToday(), nearToday()), last = Math.max(given.last ?? nearToday(), nearToday());
  return {nurse: given.nurse ?? nurses()[0], first, last, shown: monday(first), isHalf: false};
}

function stepWho() {
  const more = button('Somebody else is ill, too', () => {
    if (known.marked) absences = [];
    absences.push(newAbsence());
    edited();
  }, {class: 'quiet', id: 'somebody-else'});
  return h('section', {class: 'card'}, stepTitle(1, 'Who, and which days'), absences.map(absenceForm),
    h('p', {class: 'bad-text', id: 'ill-fault', role: 'alert', hidden: true}),
    known.marked && h('p', {class: 'good-text'}, `✓ ${known.marked}`),
    h('div', {class: 'row'},
      !known.marked && button('Mark absent', mark, {class: 'primary', id: 'mark-absent', disabled: isLocked()}), more));
}

/** Draws the days that are being entered, which aren't marked yet. */
function edited() {
  known.marked = '';
  draw();
}

const stepTitle = (number, ...words) => h('h2', {}, h('span', {class: 'step-number'}, number), words);

function absenceForm(absence, at) {
  const {nurse, first, last} = absence;
  const choice = h('select', {
    onchange: (event) => {
      absence.nurse = Number(event.target.value);
      edited();
    }
  },
    nurses().map((one) => h('option', {value: one, selected: one === nurse}, nameOf(one))));
  const remove = absences.length > 1 && button('Not her', () => {
    absences.splice(at, 1);
    edited();
  }, {class: 'quiet', 'aria-label': `Not ${nameOf(nurse)}`});
  const days = [...Array(SHOWN).keys()].map((step) => absence.shown + step).filter(isShown);
  const week = (text, label, step, isEnd) => button(text, () => toWeek(absence, step), {'aria-label': label, disabled: isEnd});
  return h('div', {class: 'who-is-ill'}, h('div', {class: 'row'}, h('label', {}, 'Nurse ', choice), remove),
    h('div', {class: 'row spread which-weeks'}, week('‹', 'Week before', -7, absence.shown <= monday(nearToday())),
      h('span', {class: 'soft'}, 'Choose the first day, then the last.'),
      week('›', 'Week after', 7, absence.shown + SHOWN >= month.ward.days)),
    h('div', {class: 'ill-days', role: 'group', 'aria-label': `Days on which ${nameOf(nurse)} is ill`},
      days.map((day) => illDay(absence, at, day))),
    h('p', {}, h('b', {}, named(nameOf(nurse)), `: ${daysText(first, last)}. `), openWords(nurse, first, last)));
}

/** Shows earlier or later days to choose from. */
async function toWeek(absence, step) {
  absence.shown += step;
  await loadDay(step > 0 ? absence.shown + SHOWN - 1 : absence.shown);
  draw();
}

function illDay(absence, at, day) {
  const {nurse, first, last} = absence, [weekday, date] = dayText(day).split(' ');
  const choose = () => {
    if (absence.isHalf && day >= first) Object.assign(absence, {last: day, isHalf: false});
    else Object.assign(absence, {first: day, last: day, isHalf: true});
    edited();
    say(`${daysText(absence.first, absence.last)} chosen`);
  };
  return button([h('span', {}, weekday.slice(0, 2)), h('b', {}, date), chip(choiceAt(nurse, day))], choose, {
    disabled: isPast(day),
    'aria-pressed': String(day >= first && day <= last),
    'aria-label': `${dayOf(day).long}, ${choiceText(choiceAt(nurse, day))}`,
    id: `ill-${at}-${day}`,
  });
}

function openWords(nurse, first, last) {
  const days =
    [...Array(last - first + 1).keys()].map((step) => first + step).filter((day) => isShown(day) && choiceAt(nurse, day));
  if (!days.length) return 'No shift of hers is on these days.';
  return `${plural(days.length, 'shift')} would be open: ${
    days.map((day) => `${dayText(day)} ${shiftName(choiceAt(nurse, day)[0])}`).join(', ')}.`;
}

async function mark() {
  const refused = (error) => {
    showFault(error.message);
    return true;
  };
  const answer = await change(
    '/api/ill', {absences: absences.map(({nurse, first, last}) => ({nurse, first, last}))}, {refused, words: false});
  if (!answer) return;
  const numbers = answer.asks.map((one) => one.number);
  known.marked = numbers.length === 1 ? `Marked absent. It is ask ${numbers[0]}, and can be withdrawn.`
                                      : `Marked absent. These are asks ${numbers.join(' and ')}, and can be withdrawn.`;
  known.open = answer.open;
  draw();
  say(`${known.marked} Looking for repairs.`);
  await repair();
}

function showFault(words) {
  const fault = $('#ill-fault');
  if (!fault) return;
  fill(fault, words);
  fault.hidden = false;
}

// ---- 2: who may take each open shift

function stepTakers() {
  if (!known.open.length)
    return h('section', {class: 'card empty'}, stepTitle(2, 'Who may take each open shift'),
      h('p', {class: 'soft'}, 'No shift is open. If somebody who is marked absent had one, it would stand here.'));
  const isWide = innerWidth > 600;
  return h('section', {class: 'card'}, stepTitle(2, 'Who may take each open shift'),
    known.open.map((open, at) => openShift(open, isWide && at === 0)),
    h('p', {class: 'soft'}, 'To give a single shift to one of them, set it in the month. A repair fills all of them.'));
}

const keyOf = ({day, shift, skill}) => `${day}/${shift}/${skill}`;

function openShift(open, isFirst) {
  const body = h('div', {}), {shift, skill, words, below_minimum: below} = open;
  const details = h('details', {class: 'open-shift', open: isFirst || known.takers.has(keyOf(open))},
    h('summary', {}, chip([shift, skill ?? 0]), h('b', {}, words),
      below ? h('span', {class: 'bad-text'}, `▼ ${below} below the minimum`)
            : h('span', {class: 'soft'}, 'the minimum is still met')),
    body);
  const fillTakers = () => {
    if (details.open) showTakers(open, body);
  };
  details.addEventListener('toggle', fillTakers);
  fillTakers();
  return details;
}

async function showTakers(open, body) {
  const key = keyOf(open);
  if (!known.takers.has(key)) {
    fill(body, h('p', {class: 'soft', 'aria-busy': 'true'}, h('span', {class: 'turning'}), 'Asking roster…'));
    known.takers.set(key, get('/api/who', {day: open.day, shift: open.shift, skill: open.skill, v: version()}));
  }
  try {
    fill(body, takerTable(await known.takers.get(key)));
  } catch (error) {
    known.takers.delete(key);
    fill(body, h('p', {class: 'bad-text'}, error.message));
  }
}

function takerTable({takers, others}) {
  const names = (found) => found.map(({name, words}, at) => [at > 0 && ', ', named(name), words && ` (${words})`]);
  const rows = takers.map(
    (taker) => h('tr', {},
      h('th', {scope: 'row'}, named(taker.name), taker.is_best && h('small', {class: 'tag'}, 'cheapest')),
      h('td', {}, taker.penalty === null ? '–' : `${taker.penalty}${taker.more === null ? '' : ` (${signed(taker.more)})`}`),
      h('td', {}, taker.days), h('td', {class: taker.missed ? 'bad-text' : ''}, taker.missed ? `▼ ${taker.missed}` : 0)));
  return [
    rows.length ? table({class: 'numbers'}, ['Nurse', 'Penalty then', 'Own days that change', 'Minimums missed'], rows)
                : h('p', {class: 'bad-text'}, 'Nobody may take it.'),
    others.length > 0 && h('p', {class: 'soft'}, 'May not: ', names(others), '.')
  ];
}

// ---- 3: repairs

async function repair() {
  try {
    adoptRun(await send('/api/repair', {version: version(), seconds: SECONDS}));
    draw();
  } catch (error) {
    if (!(error instanceof Refused)) throw error;
    draw();
    showRepairFault(error.message);
  }
}

function showRepairFault(words) {
  const fault = $('#repair-fault');
  if (fault) fill(fault, `✕ ${words}`);
  say(words);
}

function stepRepairs() {
  const run = repairRun(), isBusy = run !== null && (isAtWork(run) || run.state === 'waiting');
  const isWhole = !month.state.counts.breaches && !known.open.length && !known.candidates.length;
  const content = isBusy
    ? h('p', {class: 'soft', 'aria-busy': 'true'}, h('span', {class: 'turning'}),
        run.state === 'waiting' ? 'It waits until the run before it has ended.'
                                : `Looking for repairs from ${dayText(nearToday())} on, for up to ${SECONDS} seconds.`)
    : known.candidates.length ? h('div', {class: 'candidates'}, known.candidates.map(candidateCard))
                              : run?.state !== 'failed' &&
      h('p', {class: 'soft'},
        isWhole ? 'Every hard rule is kept, so there is nothing to repair.'
                : 'None has been looked for since the last change.');
  return h('section', {class: 'card wide', id: 'repairs'}, stepTitle(3, 'Repairs, side by side'), content,
    h('p', {class: 'bad-text', id: 'repair-fault', role: 'alert'}, run?.state === 'failed' && `✕ ${run.words}`),
    !isBusy && !isWhole &&
      h('div', {class: 'row'},
        button(known.candidates.length ? 'Look again' : 'Look for repairs', repair,
          {id: 'look-for-repairs', disabled: isLocked(), class: known.candidates.length ? '' : 'primary'})));
}

function candidateCard(one) {
  const fact = (name, value, isBest, more) =>
    h('div', {}, h('dt', {}, name), h('dd', {class: isBest ? 'best' : ''}, value, more && h('small', {}, more)));
  const differs = one.differs.slice(0, NURSES), left = one.differs.slice(NURSES);
  return h('article', {class: 'candidate', 'aria-labelledby': `candidate-${one.number}`},
    h('h3', {id: `candidate-${one.number}`}, one.title),
    h('dl', {class: 'facts'}, fact('Days changed', one.days, one.is_fewest, one.is_fewest && 'fewest'),
      fact('People to call', one.people), fact('Penalty', one.penalty ?? '–', one.is_cheapest, one.is_cheapest && 'lowest'),
      fact('Hard rules', one.penalty === null ? '▼ broken' : '✓ kept')),
    h('ul', {class: 'differences'},
      differs.map(
        ({nurse, name, changes}) => h('li', {},
          h('b', {}, named(name), isAbsent(nurse, changes) && h('small', {}, ' absent')), dayChanges(changes, DAYS))),
      left.length > 0 && h('li', {class: 'soft'}, `and ${plural(left.length, 'more nurse', 'more nurses')}`)),
    button('Take this one', () => take(one), {
      class: one.number === 1 ? 'primary' : '',
      disabled: isLocked(),
      'aria-label': `Take this one: ${one.title}`,
      id: `take-${one.number}`
    }));
}

const isAbsent = (nurse, changes) => changes.some(({day}) => isShown(day) && marksAt(nurse, day).absent);

async function take(one) {
  const answer = await change('/api/take', {candidate: one.number}, {words: false});
  if (!answer) return;
  Object.assign(known, {calls: answer.calls, callsOf: answer.calls_of, candidates: []});
  draw();
  toast(`Taken. Version ${version()}, penalty ${month.state.soft}. What is published stays as it was.`);
  const calls = $('#calls');
  calls?.focus();
}

// ---- 4: whom to call

const ticksKey = () => `calls of ${month.ward.file}, version ${known.callsOf}`;

/** The calls that were made, which this browser remembers. */
function ticks() {
  try {
    return new Set(JSON.parse(localStorage.getItem(ticksKey())) ?? []);
  } catch { return new Set(); }
}

function tick(nurse, isDone) {
  const done = ticks();
  if (isDone) done.add(nurse);
  else done.delete(nurse);
  try {
    localStorage.setItem(ticksKey(), JSON.stringify([...done]));
  } catch { say('This browser doesn’t keep the ticks.'); }
  draw();
}

function stepCalls() {
  if (known.callsOf === null) return null;
  const done = ticks(), count = known.calls.filter(({nurse}) => done.has(nurse)).length;
  const lines = known.calls.map((call) => h('li', {class: done.has(call.nurse) ? 'is-done' : ''},
                                  h('label', {}, h('input', {
                                    type: 'checkbox',
                                    checked: done.has(call.nurse),
                                    id: `call-${call.nurse}`,
                                    onchange: (event) => tick(call.nurse, event.target.checked)
                                  }),
                                    h('b', {}, named(call.name))),
                                  dayChanges(call.changes, DAYS + 1),
                                  button('Says no', () => saysNo(call),
                                    {class: 'quiet', disabled: isLocked(), 'aria-label': `${call.name} says no`})));
  return h('section', {class: 'card wide', id: 'calls', tabindex: '-1'},
    stepTitle(4, 'Who has to be called', ' ', h('small', {class: 'soft'}, `${count} of ${known.calls.length} done`)),
    lines.length ? h('ul', {class: 'calls'}, lines)
                 : h('p', {class: 'soft'}, 'Nobody. Only the days of those who are absent change.'),
    h('p', {class: 'soft'}, 'Print it, or keep this tab open next to the phone.'));
}

/** Keeps the days from a nurse who says no, and looks again. */
async function saysNo({nurse, name, changes}) {
  const days = changes.map(({day}) => day), list = days.map(dayText).join(', ');
  const body = h('div', {},
    h('ul', {class: 'points'}, h('li', {}, 'The repair that you took is taken back, as a new version.'),
      h('li', {}, named(name), ` keeps what she had before on ${list}. That is an ask, which can be withdrawn.`),
      h('li', {}, 'Then repairs are looked for again.')));
  if (!await ask('She says no?', body, 'Look again')) return;
  const answer = await change('/api/no', {nurse, days}, {words: false});
  if (!answer) return;
  Object.assign(known, {calls: [], callsOf: null, candidates: [], marked: answer.words});
  adoptRun(answer.run);
  await loadKnown();
  say(`${answer.words} Looking for repairs.`);
}

// ---- drawing

function draw() {
  if (currentView() !== 'ill') return;
  const focused = document.activeElement?.id, run = repairRun();
  fill($('#view-ill'), h('h2', {class: 'view-title'}, 'Somebody is ill'),
    month.state.has_roster ? h('div', {class: 'steps'}, stepWho(), stepTakers(), stepRepairs(), stepCalls())
                           : h('section', {class: 'card empty'}, h('p', {}, 'Nothing is planned yet, so no shift is open.')));
  follow(run);
  if (focused) document.getElementById(focused)?.focus({preventScroll: true});
}

/** Asks for all that the view shows of the present version. */
async function loadKnown() {
  const of = version();
  const [open, candidates, calls] =
    await Promise.all([get('/api/open', {v: of}), get('/api/candidates', {v: of}), get('/api/calls')]);
  if (of !== version()) return;
  known.takers.clear();
  Object.assign(
    known, {open: open.open, candidates: candidates.candidates, calls: calls.calls, callsOf: calls.calls_of, version: of});
  draw();
}

async function open(given) {
  if (given || !absences.length) {
    absences = [newAbsence(given ?? {})];
    known.marked = '';
  }
  draw();
  await loadRuns();
  await loadKnown();
}

function update() {
  if (known.version !== version()) loadKnown().catch((error) => say(error.message));
  draw();
}

whenRunChanges((run, before) => {
  if (run.kind !== 'repair' || currentView() !== 'ill') return;
  if (before && before.state === run.state && before.place === run.place) return;
  draw();
  if (run.state !== 'ended') return;
  loadKnown().then(() => say(`${plural(known.candidates.length, 'repair')} found.`), (error) => say(error.message));
});

register('ill', {open, update, close: unfollow});
