// The table of the month: nurses down, days across. It is built once for a window of weeks; a change paints only the rows
// that changed.
import {paint, shade} from './cell.js';
import {openCover, refreshCover} from './cover.js';
import {detail} from './detail.js';
import {$, button, fill, h, named, plural, say} from './dom.js';
import {openNurse} from './drawer.js';
import {wireKeys} from './keys.js';
import {selection, settleIn, standing} from './standing.js';
import {wirePointer} from './swap.js';
import {dayOf, daysShown, daysText, isOpen, month, nearToday, nurseRow, nurses, skillName} from './ward.js';

// Rows as high as these are for at most this many nurses.
const ROOMY = 15;
const BALANCE = [
  ['cost', 'Cost', 'What the nurse costs, in points'],
  ['unmet', '!', 'Requests not met'],
  ['nights', 'Nights', 'Night shifts'],
  ['weekends', 'W/e', 'Weekends worked'],
  ['changed', '*', 'Days changed since publication'],
];
// For each nurse the row, its cells by day, and the cells of its balance.
const lines = new Map();
const wanted = {
  name: '',
  skill: ''
};
let sortedBy = null;

export const cellAt = (nurse, day) => lines.get(nurse)?.cells.get(day);
/** The nurses that are shown, from top to bottom. */
export const shownNurses =
  () => [...$('#nurses').rows].filter((row) => !row.hidden && row.dataset.nurse).map((row) => Number(row.dataset.nurse));

// ---- building

export function buildGrid(host) {
  const before = $('.grid-box', host), scrolled = before ? [before.scrollLeft, before.scrollTop] : null;
  settleIn();
  lines.clear();
  const body = h('tbody', {id: 'nurses'}, nurses().map(buildRow));
  const table = h('table', {
    class: nurses().length <= ROOMY ? 'grid roomy' : 'grid',
    role: 'grid',
    id: 'grid',
    'aria-label': `${month.ward.title}, nurses by days`,
    'aria-colcount': month.days.length + 1 + BALANCE.length,
    'aria-multiselectable': 'true',
    'aria-readonly': String(!isOpen()),
    'aria-describedby': 'key-words',
  },
    columns(), heads(), body, h('tfoot', {id: 'cover'}));
  const box = h('div', {class: 'grid-box'}, table);
  fill(host, box,
    h('span', {class: 'unseen', id: 'key-words'}, 'Arrows move, letters set a shift, Delete is off, Space picks up.'));
  arrange();
  refreshCover();
  wirePointer(table);
  wireKeys(table);
  if (scrolled) [box.scrollLeft, box.scrollTop] = scrolled;
  else scrollToToday(box);
}

function columns() {
  const days =
    daysShown().map((day) => h('col', {class: day % 7 === 0 && day !== month.window.first ? 'col-week' : 'col-day'}));
  const balance = BALANCE.map(([name]) => h('col', {class: name === 'cost' ? 'col-cost' : 'col-balance'}));
  return h('colgroup', {}, h('col', {class: 'col-name'}), days, balance);
}

function heads() {
  const weeks = month.weeks.map((week, at) => h('th', {
    colspan: 7,
    scope: 'colgroup',
    class: `week${at ? ' week-start' : ''}${week.state === 'draft' ? ' draft' : ''}`,
  },
                                  h('span', {}, week.text), ' ', h('small', {}, week.state)));
  const first = h('tr', {},
    h('th', {class: 'corner', rowspan: 2, scope: 'col', 'aria-label': plural(nurses().length, 'nurse')}, finder()), weeks,
    h('th', {colspan: BALANCE.length, class: 'balance first week', scope: 'colgroup'}, h('small', {}, 'Balance')));
  const second = h('tr', {}, month.days.map(dayHead), BALANCE.map(balanceHead));
  return h('thead', {}, first, second);
}

function dayHead({day, weekday, text, long, today}) {
  const label = `${today ? 'Today, ' : ''}${long}`, isWeekend = day % 7 > 4,
        isStart = day % 7 === 0 && day !== month.window.first;
  const types = ['date', isStart && 'week-start', isWeekend && 'weekend', today && 'today'].filter(Boolean).join(' ');
  return h('th', {scope: 'col', class: types, abbr: long, title: label, 'aria-label': label},
    h('span', {}, weekday.slice(0, 2)), h('b', {}, text.split(' ')[1]));
}

function balanceHead([name, text, title], at) {
  return h('th', {class: `balance${at ? '' : ' first'}`, scope: 'col', 'aria-sort': 'none', 'data-sort': name},
    button(text, () => sortBy(name, title), {title: `${title}. Sort by it`, 'aria-label': title}));
}

function buildRow(nurse) {
  const {name, skills, contract} = nurseRow(nurse), letters = skills.map((skill) => month.skills[skill].letters).join(' ');
  const about = `${skills.map(skillName).join(', ')}. ${contract}`;
  const head = h('th', {scope: 'row', class: 'name', role: 'rowheader'},
    h('button', {type: 'button', class: 'name-button', tabindex: '-1', onclick: () => openNurse(nurse)}, named(name),
      h('small', {title: about}, letters)));
  const row = h('tr', {'data-nurse': nurse}, head), cells = new Map();
  for (const day of daysShown()) {
    const cell = h('td', {role: 'gridcell', 'data-nurse': nurse, 'data-day': day});
    paint(cell, nurse, day);
    cells.set(day, cell);
    row.append(cell);
  }
  const balance =
    BALANCE.map(([of], at) => h('td', {role: 'gridcell', class: `balance${at ? '' : ' first'}`, 'data-of': of}));
  row.append(...balance);
  lines.set(nurse, {row, cells, balance});
  fillBalance(nurse);
  return row;
}

// ---- the balance at the right

function fillBalance(nurse) {
  const {cost, balance, name} = nurseRow(nurse);
  for (const cell of lines.get(nurse).balance) {
    const of = cell.dataset.of;
    if (of === 'cost') {
      cell.classList.toggle('zero', !cost);
      const label = `${name} costs ${cost}, show why`;
      fill(cell,
        cost === null ? '–'
                      : button(cost, () => openNurse(nurse), {class: 'cost-button', tabindex: '-1', 'aria-label': label}));
      continue;
    }
    const number = balance?.[of] ?? null, isMark = of === 'unmet' || of === 'changed';
    cell.classList.toggle('zero', isMark && !number);
    cell.classList.toggle('much', isMark && number > 0);
    fill(cell, number ?? '–', extreme(number, month.state.fairness?.[of], isMark));
  }
}

function extreme(number, range, isMark) {
  if (isMark || !range || number === null || range[0] === range[1] || (number !== range[0] && number !== range[1]))
    return null;
  const isMost = number === range[1], words = isMost ? 'greatest of all' : 'least of all';
  return h('i', {class: 'extreme', title: words}, h('span', {'aria-hidden': 'true'}, isMost ? '▲' : '▽'),
    h('span', {class: 'unseen'}, ` ${words}`));
}

// ---- which nurses, in which order

const valueOf = (nurse, by) => (by === 'cost' ? nurseRow(nurse).cost ?? 0 : nurseRow(nurse).balance?.[by] ?? 0);
const isWanted = (nurse) => nurseRow(nurse).name.toLowerCase().includes(wanted.name.toLowerCase()) &&
  (wanted.skill === '' || nurseRow(nurse).skills.includes(Number(wanted.skill)));

/** Puts the rows in order, and hides those that aren't looked for. */
function arrange() {
  const order = [...nurses()];
  if (sortedBy) order.sort((first, second) => valueOf(second, sortedBy) - valueOf(first, sortedBy) || first - second);
  const body = $('#nurses');
  if (!body) return;
  $('.none', body)?.parentElement.remove();
  body.append(...order.map((nurse) => lines.get(nurse).row));
  let shown = 0;
  for (const nurse of order) {
    const {row} = lines.get(nurse);
    row.hidden = !isWanted(nurse);
    if (!row.hidden) row.setAttribute('aria-rowindex', (shown += 1) + 2);
  }
  $('#grid').setAttribute('aria-rowcount', shown + 2);
  if (!shown) body.append(nobody());
  const field = $('#find-nurse');
  if (field) field.placeholder = shown === order.length ? plural(shown, 'nurse') : `${shown} of ${order.length}`;
  if (shown && lines.get(standing.nurse).row.hidden) stand(shownNurses()[0], standing.day, false);
}

function nobody() {
  const words = wanted.name ? `No nurse is called “${wanted.name}”. ` : 'No nurse has this skill. ';
  return h('tr', {},
    h('td', {class: 'none', colspan: month.days.length + 1 + BALANCE.length}, words,
      button('Show all', showAll, {class: 'quiet'})));
}

export function showAll() {
  wanted.name = wanted.skill = '';
  $('#find-nurse').value = $('#find-skill').value = '';
  arrange();
}

function sortBy(name, title) {
  sortedBy = sortedBy === name ? null : name;
  for (const head of document.querySelectorAll('#grid [data-sort]')) {
    const isSorted = head.dataset.sort === sortedBy;
    head.setAttribute('aria-sort', isSorted ? 'descending' : 'none');
    fill($('button', head), BALANCE.find(([of]) => of === head.dataset.sort)[1], isSorted && ' ↓');
  }
  arrange();
  say(sortedBy ? `Sorted by ${title.toLowerCase()}, greatest first` : 'Sorted as the ward lists them');
}

function finder() {
  const search = (event) => {
    wanted.name = event.target.value;
    arrange();
  };
  const choose = (event) => {
    wanted.skill = event.target.value;
    arrange();
  };
  const skills = month.skills.map((skill, at) => h('option', {value: at, selected: wanted.skill === String(at)}, skill.name));
  return h('div', {class: 'find'},
    h('input', {type: 'search', id: 'find-nurse', 'aria-label': 'Find a nurse', value: wanted.name, oninput: search}),
    h('select', {id: 'find-skill', 'aria-label': 'Skill', onchange: choose}, h('option', {value: ''}, 'All skills'), skills));
}

// ---- repainting

/** Paints the rows of some nurses, or all rows if none are named, and every balance, since its greatest and least may move. */
export function repaintRows(of = null) {
  for (const nurse of of ?? nurses()) lines.get(nurse)?.cells.forEach((cell, day) => paint(cell, nurse, day));
  for (const nurse of lines.keys()) fillBalance(nurse);
  if (sortedBy) arrange();
  if (of === null) [...document.querySelectorAll('#grid .week:not(.balance)')].forEach(refreshWeek);
  refreshCover();
}

function refreshWeek(head, at) {
  head.classList.toggle('draft', month.weeks[at].state === 'draft');
  $('small', head).textContent = month.weeks[at].state;
}

export function repaint(nurse, day) {
  const cell = cellAt(nurse, day);
  if (cell) paint(cell, nurse, day);
}

export const reshade = (nurse, day) => {
  const cell = cellAt(nurse, day);
  if (cell) shade(cell, nurse, day);
};
export const reshadeRow = (nurse) => lines.get(nurse)?.cells.forEach((cell, day) => shade(cell, nurse, day));

// ---- moving

/** Goes to a cell. */
export function stand(nurse, day, hasFocus = true) {
  const before = standing.nurse;
  Object.assign(standing, {nurse, day, until: null});
  reshadeRow(before);
  reshadeRow(nurse);
  detail();
  if (hasFocus) focusCell();
}

export function focusCell() {
  const cell = cellAt(standing.nurse, standing.day);
  if (!cell) return;
  cell.focus({preventScroll: true});
  scrollTo(cell);
}

/** Selects the days from where one stands to another one. */
export function selectTo(day) {
  standing.until = day;
  reshadeRow(standing.nurse);
  detail();
  say(`${daysText(...selection())} selected`);
}

/** Scrolls a cell out from under the heads, the names and the cover, which the browser doesn't know of. */
export function scrollTo(cell) {
  const box = cell.closest('.grid-box'), at = cell.getBoundingClientRect(), frame = box.getBoundingClientRect();
  const top = frame.top + $('thead', box).offsetHeight, left = frame.left + $('.corner', box).offsetWidth;
  const cover = $('#cover'), isSticky = getComputedStyle(cover).position === 'sticky';
  const bottom = frame.bottom - (isSticky ? cover.offsetHeight : 0) - 16;
  if (at.top < top) box.scrollTop -= top - at.top + 2;
  else if (at.bottom > bottom) box.scrollTop += at.bottom - bottom;
  if (at.left < left) box.scrollLeft -= left - at.left + 2;
  else if (at.right > frame.right) box.scrollLeft += at.right - frame.right + 18;
  const now = cell.getBoundingClientRect();
  if (now.top < 0 || now.bottom > innerHeight) cell.scrollIntoView({block: 'center'});
}

function scrollToToday(box) {
  const day = Math.max(month.window.first, nearToday() - 2), cell = cellAt(nurses()[0], day);
  if (cell && dayOf(day) && box.scrollWidth > box.clientWidth) {
    box.scrollLeft = cell.offsetLeft - $('.corner', box).offsetWidth - 4;
  }
}

/** Shows the slots of a shift, and marks a day of them. */
export function showHole(shift, day) {
  openCover(shift);
  stand(shownNurses()[0] ?? nurses()[0], day);
  const column = daysShown().indexOf(day) + 1;
  for (const row of $('#cover').rows) row.cells[column]?.classList.add('shown-hole');
}
