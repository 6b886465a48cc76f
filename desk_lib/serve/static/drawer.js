// The drawer at the right: a nurse, the problems, the fairness, the penalty. It isn't modal; Escape closes it.
import {get, withParameters} from './api.js';
import {$, button, fill, h, named, plural, say, table} from './dom.js';
import {jump} from './problems.js';
import {dayText, isPast, month, nameOf, nurseRow, nurses, skillName, version} from './ward.js';

let before = null;
// What draws the drawer again after a change.
let redraw = null;

export function closeDrawer(goesBack = true) {
  const drawer = $('#drawer');
  if (drawer.hidden) return false;
  drawer.hidden = true;
  redraw = null;
  if (goesBack && before?.isConnected) before.focus();
  before = null;
  return true;
}

/** Opens the drawer with what a function draws, which is called again after each change. */
export function openDrawer(draw) {
  const drawer = $('#drawer');
  if (drawer.hidden) before = document.activeElement;
  drawer.hidden = false;
  drawer.setAttribute('aria-labelledby', 'drawer-title');
  redraw = draw;
  drawDrawer();
  $('#drawer-title').focus();
}

function drawDrawer() {
  const {title, body} = redraw();
  fill($('#drawer'),
    h('div', {class: 'drawer-head'}, h('h2', {id: 'drawer-title', tabindex: '-1'}, title),
      button('✕', () => closeDrawer(), {class: 'quiet', 'aria-label': 'Close', title: 'Close (Esc)'})),
    h('div', {class: 'drawer-body'}, body));
}

export function refreshDrawer() {
  if (redraw && !$('#drawer').hidden) drawDrawer();
}

const section = (title, ...children) => h('section', {}, h('h3', {}, title), children);

// ---- a nurse

/** A nurse: what she costs and why, her balance, her requests. `first` is drawn above, as the sheet of a day on a phone. */
export function openNurse(nurse, first = () => null) {
  openDrawer(() => {
    const row = nurseRow(nurse), [least, most] = row.assignments;
    const about = `${row.skills.map(skillName).join(', ')} · ${row.contract}, ${least} to ${plural(most, 'shift')}`;
    return {
      title: named(row.name),
      body: [
        h('p', {class: 'soft'}, about), first(), section(`Costs ${row.cost ?? '–'}`, reasonList(nurse)),
        section('Balance', balanceTable(row)), section('Requests', requestList(nurse)), section('To print', monthLink(nurse))
      ],
    };
  });
}

function reasonList(nurse) {
  const {cost, reasons} = nurseRow(nurse);
  if (!reasons.length)
    return h('p', {class: 'soft'}, cost === null ? 'No roster yet.' : 'Nothing: this row breaks no soft rule.');
  return h('ul', {class: 'reasons'},
    reasons.map((reason) => h('li', {}, h('b', {}, reason.day === null ? reason.points : ''),
                  reason.day === null
                    ? h('span', {}, reason.name)
                    : button(reason.words, () => jump({nurse, day: reason.day, words: reason.words}), {class: 'link'}),
                  h('small', {}, reason.rule))));
}

function balanceTable({balance, with_before: withBefore}) {
  if (!balance) return h('p', {class: 'soft'}, 'No roster yet.');
  const names = {
    shifts: 'Shifts',
    nights: 'Nights',
    weekends: 'Weekends',
    unmet: 'Requests not met',
    changed: 'Changed since publication'
  };
  const rows = Object.keys(names)
                 .filter((of) => balance[of] !== undefined)
                 .map((of) => h('tr', {}, h('th', {scope: 'row'}, names[of]), h('td', {}, balance[of]),
                        withBefore && h('td', {}, withBefore[of] ?? '–')));
  return table({class: 'numbers'}, ['', 'This month', ...withBefore ? ['With months before'] : []], rows);
}

function requestList(nurse) {
  const marked = Object.entries(nurseRow(nurse).marks).filter(([, marks]) => marks.request).map(([day,
    marks]) => [Number(day), marks.request]);
  if (!marked.length) return h('p', {class: 'soft'}, 'None in these weeks.');
  return h('ul', {class: 'reasons'},
    marked.map(
      ([day, request]) => h('li', {},
        h('b', {class: request.met === false ? 'bad-text' : '', 'aria-hidden': 'true'}, request.met === false ? '!' : '○'),
        button(`${dayText(day)}: ${request.words}`, () => jump({nurse, day, words: request.words}), {class: 'link'}),
        h('small', {},
          request.met === null ? ''
            : request.met ? 'met'
                               : ['not met', !isPast(day) && [' ', whyButton(nurse, day)]]))));
}

/** Asks what it would cost to meet a request. */
function whyButton(nurse, day) {
  const ask = async (event) => {
    const line = event.target.closest('li');
    event.target.disabled = true;
    const {lines} = await get('/api/why', {nurse, day, v: version()}).catch((error) => ({lines: [error.message]}));
    line.append(h('p', {class: 'soft small why-lines'}, lines.map((words) => [words, h('br')])));
    say(lines.join('. '));
  };
  return button('What would it cost?', ask, {class: 'link'});
}

const monthLink = (nurse) => h('div', {class: 'row'},
  h('a', {class: 'button', target: '_blank', rel: 'noopener', href: withParameters('/export/nurse', {nurse, inline: 1})},
    'Her month as a page'),
  h('a', {class: 'button', href: withParameters('/export/ics', {nurse})}, 'Her calendar'));

// ---- the problems

const KINDS = {
  breach: ['Hard rules broken', 'No hard rule is broken. Every minimum is met.', 'breaches'],
  low: ['Cover below the optimum', 'Every optimum is met.', 'low'],
  unmet: ['Requests not met', 'Every request is met.', 'unmet'],
};

export function openProblems(first) {
  const order = [first, ...Object.keys(KINDS).filter((kind) => kind !== first)];
  openDrawer(() => ({
    title: 'Problems',
    body: [h('p', {class: 'soft'}, 'F8 goes to the next one, Shift + F8 to the one before.'), order.map(problemSection)],
  }));
}

function problemSection(kind) {
  const [title, none, list] = KINDS[kind], places = month.state[list];
  const signs = {
    breach: ['bad-text', (place) => (place.rule === 'absent' ? 'abs' : place.rule)],
    low: ['warn-text', () => '▽'],
    unmet: ['bad-text', () => '!']
  };
  const [type, sign] = signs[kind];
  const lines = places.map((place) => h('li', {class: place.past ? 'is-past' : ''}, h('b', {class: type}, sign(place)),
                             button([place.words, place.past && ' (past)'], () => jump(place), {class: 'link'})));
  return h('section', {}, h('h3', {}, title, ' ', h('span', {class: 'count'}, places.length)),
    lines.length ? h('ul', {class: 'reasons jumps'}, lines) : h('p', {class: 'good-text'}, `✓ ${none}`));
}

// ---- fairness and penalty

export function openFairness() {
  openDrawer(() => {
    const columns = ['nights', 'weekends', 'unmet'],
          order = [...nurses()].sort((first, second) => count(second, 'nights') - count(first, 'nights'));
    const rows = order.map(
      (nurse) => h('tr', {}, h('th', {scope: 'row'}, button(named(nameOf(nurse)), () => openNurse(nurse), {class: 'link'})),
        columns.map(
          (of) => h('td', {}, barOf(count(nurse, of), greatest(of)), mark(count(nurse, of), month.state.fairness?.[of])))));
    return {
      title: 'Fairness',
      body: [
        h('p', {class: 'soft'}, '▲ greatest, ▽ least of all. It is shown, and not searched for.'),
        table({class: 'numbers'}, ['Nurse', 'Nights', 'Weekends', 'Not met'], rows)
      ],
    };
  });
}

const count = (nurse, of) => nurseRow(nurse).balance?.[of] ?? 0;
const greatest = (of) => Math.max(1, ...nurses().map((nurse) => count(nurse, of)));
const mark = (number, range) => (!range || range[0] === range[1] ? ''
    : number === range[1] ? ' ▲'
    : number === range[0] ? ' ▽'
                                                                 : '');

/** A bar as long as a number is great, and the number. */
function barOf(number, most) {
  const bar = h('i', {'aria-hidden': 'true'});
  bar.style.width = `${Math.round(number / most * 48)}px`;
  return h('span', {class: 'bar'}, bar, number);
}

export function openPenalty() {
  openDrawer(() => {
    const {rules, soft, penalty, bound, bound_words: words} = month.state;
    const line = (name, points) => h('tr', {}, h('th', {scope: 'row'}, name), h('td', {}, points));
    const rows = rules.map(({rule, name, points}) => line([h('b', {}, rule), ` ${name}`], points));
    const dearest =
      [...nurses()].sort((first, second) => (nurseRow(second).cost ?? 0) - (nurseRow(first).cost ?? 0)).slice(0, 10);
    rows.push(line(h('b', {}, 'Sum'), h('b', {}, soft ?? '–')));
    if (bound !== null) rows.push(line('Lower bound: every roster that keeps the hard rules costs at least this', bound));
    return {
      title: 'Penalty',
      body: [
        h('p', {class: 'soft'}, 'By rule. These are points, not money; less is better.',
          penalty === null && soft !== null && ' A hard rule is broken, so only soft rules are counted here.'),
        table({class: 'numbers'}, ['Rule', 'Points'], rows),
        h('p', {class: 'soft'},
          bound !== null ? words : 'The lower bound isn’t known yet. A run in ‘Make it better’ finds one.'),
        section('Dearest rows',
          h('ul', {class: 'reasons jumps'},
            dearest.map((nurse) => h('li', {}, h('b', {}, nurseRow(nurse).cost ?? '–'),
                          button(named(nameOf(nurse)), () => openNurse(nurse), {class: 'link'})))))
      ],
    };
  });
}
