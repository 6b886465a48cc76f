// One cell of the month: what stands in it, and how it is marked.
import {fill, h} from './dom.js';
import {isSelected, isStanding} from './standing.js';
import {chip, choiceAt, dayOf, marksAt, month, shiftName, wordsAt} from './ward.js';

/** Choices that the server hasn't answered yet, by nurse and day. */
export const pending = new Map();
/** The cell that was picked up for a swap, and the one it would be swapped with. */
export const swapping = {
  from: null,
  to: null
};

export const keyOf = (nurse, day) => `${nurse}/${day}`;
/** What a cell shows: what was asked for, until the server answers. */
export function shownChoice(nurse, day) {
  const asked = pending.get(keyOf(nurse, day));
  return asked ? asked.choice : choiceAt(nurse, day);
}
const isAt = (place, nurse, day) => place !== null && place.nurse === nurse && place.day === day;

/** The style and the state of a cell, without what stands in it. */
export function shade(cell, nurse, day) {
  const marks = marksAt(nurse, day), {past, published, today} = dayOf(day), selected = isSelected(nurse, day);
  const types = {
    'week-start': day % 7 === 0 && day !== month.window.first,
    past,
    published: published && !past,
    today,
    breach: marks.breach?.length,
    fixed: marks.fixed,
    away: marks.absent,
    pending: pending.has(keyOf(nurse, day)),
    selected,
    picked: isAt(swapping.from, nurse, day),
    target: isAt(swapping.to, nurse, day),
  };
  cell.className = ['day', ...Object.keys(types).filter((type) => types[type])].join(' ');
  cell.tabIndex = isStanding(nurse, day) ? 0 : -1;
  cell.setAttribute('aria-selected', String(selected || isStanding(nurse, day)));
}

/** The marks of a cell, in the corners of it or, on a phone, after a name. */
export function marksOf(nurse, day, inline = '') {
  const marks = marksAt(nurse, day), choice = choiceAt(nurse, day), found = [];
  const mark = (type, text) => h('span', {class: `mark ${type} ${inline}`.trim(), 'aria-hidden': 'true'}, text);
  for (const breach of (marks.breach ?? []).slice(0, 1)) found.push(mark('rule', shortRule(breach.rule)));
  if (marks.request) found.push(marks.request.met === false ? mark('request unmet', '!') : mark('request', '○'));
  if (marks.ban?.length) {
    const letters = marks.ban.map((shift) => month.shifts[shift].letter).join('');
    found.push(choice ? mark('ban', '≠') : mark('ban alone', `≠${letters}`));
  }
  if (marks.changed) found.push(mark('changed', '*'));
  return found;
}

const shortRule = (rule) => ({absent: 'abs', changed: '≠'}[rule] ?? rule);

/** All of a cell. */
export function paint(cell, nurse, day) {
  const marks = marksAt(nurse, day), choice = shownChoice(nurse, day), words = wordsAt(nurse, day).join('. ');
  shade(cell, nurse, day);
  cell.setAttribute('aria-label', words);
  cell.title = words;
  fill(cell, marks.absent && !choice ? h('span', {class: 'chip away'}, 'abs') : chip(choice), marksOf(nurse, day));
}

/** What a shift is called in a button that sets it. */
export const setLabel = (shift) => (shift === null ? 'Off (Delete)' : `${shiftName(shift)} (${month.shifts[shift].letter})`);
