// The head of the page and the state of the roster: what a planner looks at first, from left to right.
import {isLocked, redo, undo} from './changes.js';
import {$, button, fill, h, plural} from './dom.js';
import {openFairness, openPenalty, openProblems} from './drawer.js';
import {runButton} from './runs.js';
import {signs} from './signs.js';
import {currentView, show} from './views.js';
import {dateOf, month} from './ward.js';

const TABS = [
  ['month', 'Month', 'Month'],
  ['ill', 'Somebody is ill', 'Ill'],
  ['asks', 'Asks', 'Asks'],
  ['better', 'Make it better', 'Better'],
  ['publish', 'Publish', 'Publish'],
];
// Up to that many weeks are one month.
const LONG = 5;
const MONTH = new Intl.DateTimeFormat('en-GB', {month: 'long', year: 'numeric', timeZone: 'UTC'});

/** The month in the middle of the ward's days, or over a longer time the first and the last one. */
function monthWords() {
  const {weeks, days} = month.ward;
  if (weeks <= LONG) return MONTH.format(dateOf(Math.trunc(days / 2)));
  return `${MONTH.format(dateOf(0))} to ${MONTH.format(dateOf(days - 1))}`;
}

export function drawHead(view) {
  const {number} = month.version, when = monthWords();
  document.title = `${month.ward.title}, ${when}`;
  fill($('#subtitle'), `Version ${number} · ${when}`);
  fill($('#tabs'),
    TABS.map(([name, long, short]) => h('a', {
      href: `/${name}`,
      'aria-current': view === name ? 'page' : null,
      'aria-label': long,
      onclick: (event) => {
        if (!event.ctrlKey && !event.metaKey) {
          event.preventDefault();
          show(name);
        }
      },
    },
               h('span', {class: 'long'}, long), h('span', {class: 'short'}, short))));
  drawTools(view);
  drawState(view);
}

function drawTools(view) {
  const {undo: undoWords, redo: redoWords} = month.state;
  const open = $('.signs')?.open;
  fill($('#tools'), runButton(), view === 'month' && signs(open), !month.ward.read_only && [
    button('↶ Undo', undo, {
      class: 'quiet',
      id: 'undo',
      disabled: undoWords === null || isLocked(),
      title: undoWords === null ? 'Nothing to undo' : `Undo ${undoWords} (Ctrl + Z)`
    }),
    button('↷', redo, {
      class: 'quiet',
      id: 'redo',
      disabled: redoWords === null || isLocked(),
      'aria-label': 'Redo',
      title: redoWords === null ? 'Nothing to redo' : `Redo ${redoWords} (Ctrl + Y)`
    }),
  ]);
}

function drawState(view) {
  const strip = $('#state'), {state} = month;
  strip.className = `state${view === 'month' ? '' : ' slim'}${state.has_roster ? '' : ' empty'}`;
  if (!state.has_roster) return drawEmpty(strip);
  const {counts, fairness} = state;
  return fill(strip,
    tile(counts.breaches ? 'bad' : 'good', 'Hard rules', counts.breaches ? `▼ ${counts.breaches} broken` : '✓ all kept',
      counts.breaches ? state.breaches[0].words : 'every minimum is met', () => openProblems('breach')),
    tile(counts.low ? 'warn' : 'good', 'Cover',
      counts.low ? [`▽ ${counts.low} below`, h('span', {class: 'wide-only'}, ' optimum')] : '✓ full',
      counts.low ? `${counts.low_ahead} from today on` : 'every optimum is met', () => openProblems('low')),
    tile(counts.unmet ? '' : 'good', 'Requests', counts.unmet ? `! ${counts.unmet} not met` : '✓ all met',
      counts.unmet ? `of ${plural(counts.unmet_nurses, 'nurse')}` : '', () => openProblems('unmet')),
    tile('', 'Fairness', rangeText(fairness.nights, 'nights'), rangeText(fairness.weekends, 'weekends'), openFairness),
    tile('penalty', 'Penalty', state.soft ?? '–', penaltyWords(state), openPenalty));
}

const rangeText = (range, what) => (range ? `${range[0]}–${range[1]} ${what}` : '');

function penaltyWords({penalty, soft, bound, above, is_optimal: isOptimal}) {
  if (penalty === null) return soft === null ? 'not counted yet' : 'soft rules alone';
  if (bound === null) return 'lower bound not known yet';
  return isOptimal ? `lower bound ${bound}: optimal` : `lower bound ${bound}, ${above} above`;
}

const tile = (type, label, value, more, onclick) => h('button', {type: 'button', class: `tile ${type}`.trim(), onclick},
  h('span', {class: 'label'}, label), h('span', {class: 'more'}, more), h('span', {class: 'value'}, value));

function drawEmpty(strip) {
  const {needs, asks} = month.state;
  const words = ` ${plural(month.rows.length, 'nurse')}, ${plural(month.ward.days, 'day')}, at least ${
    plural(needs, 'shift')} to fill, ${plural(asks, 'ask')}.`;
  return fill(strip, h('div', {}, h('b', {}, 'Nothing is planned yet.'), words),
    button('Plan it', () => show('better', {kind: 'plan'}), {class: 'primary', disabled: isLocked()}),
    button('Look at the asks', () => show('asks')));
}

export const refreshTools = () => {
  if (month) drawTools(currentView());
};
