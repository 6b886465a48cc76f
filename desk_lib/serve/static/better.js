// Make it better: start a run, watch it, keep what it found or throw it away. The roster changes only by keeping.
import {Refused, send} from './api.js';
import {showFailed} from './banner.js';
import {change, isLocked} from './changes.js';
import {chart} from './chart.js';
import {$, button, fill, h, say, table, toast} from './dom.js';
import {adoptRun, betterRuns, elapsed, follow, isAtWork, loadRuns, mainRun, unfollow, whenRunChanges} from './runs.js';
import {refreshTools} from './state.js';
import {currentView, register} from './views.js';
import {month, version} from './ward.js';

const KINDS = {
  improve:
    ['Improve', 'Each nurse in turn gets her best row, until no single row makes the roster better. It takes seconds.'],
  polish: ['Polish', 'Improves, then goes on with many small searches, for as long as you give it.'],
  plan: ['Plan', 'For an empty roster, or one that breaks a hard rule: looks for one that keeps the rules, and polishes it.'],
};
const POINTS = 12, SAID = 4000;
const wanted = {
  kind: '',
  by: 'seconds',
  amount: 60
};
let timer = 0;
let said = 0;

const nameOf = (run) => KINDS[run.kind]?.[0] ?? run.kind;

// ---- the form

function form() {
  const isBusy = betterRuns().some(isAtWork);
  if (!wanted.kind) wanted.kind = month.state.has_roster && !month.state.counts.breaches ? 'polish' : 'plan';
  const held = month.ward.published >= 0 ? 'Past, published and fixed days stay as they are.'
                                         : 'Nothing is published yet, so every day that isn’t past or fixed may change.';
  const attributes = {class: isBusy ? '' : 'primary', id: 'start', disabled: isLocked()};
  return h('section', {class: 'card'}, h('h2', {}, isBusy ? 'The next run' : 'A run'),
    h('fieldset', {}, h('legend', {}, 'What'), Object.keys(KINDS).map(kindChoice)), amountFields(),
    h('p', {class: 'soft'}, held), h('p', {class: 'bad-text', id: 'run-fault', role: 'alert', hidden: true}),
    button(isBusy ? 'Let it wait in line' : 'Start', start, attributes), line());
}

function kindChoice(kind) {
  const [name, about] = KINDS[kind];
  const choose = () => {
    wanted.kind = kind;
    draw();
  };
  const radio = {type: 'radio', name: 'kind', value: kind, checked: wanted.kind === kind, onchange: choose, id: `kind-${kind}`};
  return h('label', {class: 'radio'}, h('input', radio), h('span', {}, h('b', {}, name), h('small', {}, about)));
}

/** For how long, or with how many searches. Rounds alone have no searches to count. */
function amountFields() {
  if (wanted.kind === 'improve') wanted.by = 'seconds';
  const by = (value) => h('option', {value, selected: wanted.by === value}, value);
  const measure = (event) => {
    wanted.by = event.target.value;
  };
  const count = (event) => {
    wanted.amount = Number(event.target.value);
  };
  return h('div', {class: 'row'}, h('label', {'for': 'amount'}, 'For'),
    h('input', {type: 'number', id: 'amount', min: 1, max: 1000000, value: wanted.amount, oninput: count}),
    h('select', {'aria-label': 'Measured in', onchange: measure}, by('seconds'), wanted.kind !== 'improve' && by('searches')));
}

/** The runs that wait. */
function line() {
  const waiting = betterRuns().filter((run) => run.state === 'waiting');
  return waiting.length > 0 &&
    h('ul', {class: 'waiting', 'aria-label': 'Runs that wait'},
      waiting.map(
        (run) => h('li', {},
          `Waiting: ${nameOf(run)}, ${run.seconds !== null ? `${run.seconds} seconds` : `${run.searches} searches`}`,
          button('Take out', () => drop(run), {class: 'quiet', disabled: isLocked()}))));
}

async function start() {
  const fault = $('#run-fault');
  try {
    const run = adoptRun(
      await send('/api/runs', {version: version(), kind: wanted.kind, [wanted.by]: wanted.amount, seed: 1, bound: true}));
    say(run.state === 'waiting' ? 'It waits until the run before it has ended.' : `${nameOf(run)} has begun.`);
    draw();
  } catch (error) {
    if (!(error instanceof Refused)) throw error;
    fill(fault, error.message);
    fault.hidden = false;
  }
}

// ---- the run

function noRun() {
  const {soft, bound, above, has_roster: isPlanned} = month.state;
  const words = !isPlanned ? 'Nothing is planned yet. Plan looks for a roster that keeps the hard rules.' : [
    'The roster costs ', h('b', {}, soft),
    bound === null ? '.' : [', and the lower bound is ', h('b', {}, bound), `. At most ${above} points can be saved.`]
  ];
  return h('section', {class: 'card'}, h('h2', {}, 'No run yet'), h('p', {}, words),
    h('p', {class: 'soft'},
      'You can leave this page while a run goes on. The roster changes only when you keep what the run found.'));
}

function figures(run) {
  const figure = (name, value, more = null) =>
    h('div', {}, h('span', {}, name), h('b', {}, value ?? '–'), more && h('small', {class: 'soft'}, ` ${more}`));
  return h('div', {class: 'figures'}, figure('Start', run.start), figure('Best so far', run.best), figure('Saved', run.saved),
    figure('Above the lower bound', run.above, run.bound === null ? 'not known yet' : null));
}

function runCard(run) {
  const title = run.state === 'failed' ? 'The run failed'
    : run.state === 'stopping'         ? `${nameOf(run)} is being stopped`
            : isAtWork(run) ? `${nameOf(run)} is running`
                            : 'The run has ended';
  return h('section', {class: 'card', id: 'run'},
    h('div', {class: 'row spread'}, h('h2', {}, title), h('span', {class: 'soft', id: 'run-time'}, timeOf(run))),
    run.state === 'failed' && h('p', {class: 'bad-text'}, `✕ ${run.words}`), h('div', {id: 'run-figures'}, figures(run)),
    h('div', {id: 'run-chart'}, chart(run, elapsed(run))),
    h('details', {}, h('summary', {}, 'As a table'), h('div', {id: 'run-table'}, pointTable(run))),
    h('div', {class: 'row', id: 'run-buttons'}, runButtons(run)),
    h('p', {class: 'soft'},
      isAtWork(run) ? 'Close the page if you like: the run goes on, and its best is kept for you to decide.'
                    : `Keeping makes version ${version() + 1}. What is published stays as it is.`));
}

const timeOf = (run) => `${Math.trunc(elapsed(run))} s${run.seconds === null ? '' : ` of ${run.seconds} s`}`;
const pointTable = (run) => table({class: 'numbers'}, ['Seconds', 'Penalty'],
  run.points.slice(-POINTS).map(([time, penalty]) => h('tr', {}, h('td', {}, time.toFixed(1)), h('td', {}, penalty))));

function runButtons(run) {
  const best = run.best ?? '';
  if (!isAtWork(run)) {
    return [
      run.can_keep && button(`Keep ${best}`, () => keep(run), {class: 'primary', id: 'keep', disabled: isLocked()}),
      button('Throw away', () => drop(run), {id: 'drop', disabled: isLocked()})
    ];
  }
  const isStopping = run.state === 'stopping' || isLocked();
  return [
    button(`Stop and keep ${best}`, () => stop(run, true),
      {class: 'primary', id: 'keep', disabled: isStopping || run.best === null}),
    button('Stop and throw away', () => stop(run, false), {id: 'drop', disabled: isStopping})
  ];
}

// ---- what is done with it

async function keep(run) {
  const answer = await change(`/api/runs/${run.id}/keep`, {});
  finished(answer, run);
}

async function stop(run, isKept) {
  const answer = await change(`/api/runs/${run.id}/stop`, {keep: isKept});
  finished(answer, run);
}

async function drop(run) {
  const answer = await change(`/api/runs/${run.id}/drop`, {});
  finished(answer, run);
}

function finished(answer, before) {
  if (!answer) return;
  if (answer.run) adoptRun(answer.run);
  const words = answer.rows ? `Kept. Version ${version()}, penalty ${month.state.soft}.`
    : before.state === 'waiting' ? 'Taken out of the line.'
                                 : `Thrown away. The roster is as it was: version ${version()}.`;
  toast(words);
  draw();
}

// ---- drawing

function draw() {
  if (currentView() !== 'better') return;
  const run = mainRun(), focused = document.activeElement?.id;
  fill($('#view-better'), h('h2', {class: 'view-title'}, 'Make it better'),
    h('div', {class: 'two left-narrow'}, form(), run ? runCard(run) : noRun()));
  follow(run);
  clearInterval(timer);
  if (run && isAtWork(run)) timer = setInterval(tick, 500);
  if (focused) document.getElementById(focused)?.focus();
}

/** Moves the curve on, without a change of what can be focused. */
function tick() {
  const run = mainRun();
  if (!run || !$('#run-chart') || currentView() !== 'better') {
    clearInterval(timer);
    return;
  }
  fill($('#run-chart'), chart(run, elapsed(run)));
  fill($('#run-time'), timeOf(run));
}

function tickFigures(run) {
  fill($('#run-figures'), figures(run));
  fill($('#run-table'), pointTable(run));
  const button = $('#run-buttons #keep');
  if (button && isAtWork(run)) {
    button.textContent = `Stop and keep ${run.best ?? ''}`;
    button.disabled = run.best === null || isLocked();
  }
  tick();
}

function runChanged(run, before) {
  refreshTools();
  if (run.kind === 'repair') return;
  const isSame = before && before.state === run.state && before.place === run.place;
  if (!isSame && (run.state === 'ended' || run.state === 'failed') && before)
    say(run.state === 'failed' ? `The run failed. ${run.words}` : `The run has ended. Penalty ${run.best ?? '–'}.`);
  if (!isSame && run.state === 'failed' && currentView() !== 'better') showFailed(run);
  if (currentView() !== 'better') return;
  if (!isSame) {
    draw();
    return;
  }
  if (mainRun()?.id !== run.id || !$('#run-figures')) return;
  tickFigures(run);
  if (run.best !== before.best && performance.now() - said > SAID) {
    said = performance.now();
    say(`Penalty ${run.best}`);
  }
}

async function open(given) {
  if (given?.kind) wanted.kind = given.kind;
  draw();
  await loadRuns();
  draw();
}

function update() { draw(); }

whenRunChanges(runChanged);
register('better', {open, update, close: unfollow});
