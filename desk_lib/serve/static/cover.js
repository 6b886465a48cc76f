// Cover below the table: a row for each shift, and below it one for each skill if it is opened.
import {$, fill, h, plural} from './dom.js';
import {dayOf, dayText, daysShown, month, shiftName, skillName} from './ward.js';

const opened = new Set();

export function openCover(shift) {
  opened.add(shift);
  refreshCover();
}

export function refreshCover() {
  const foot = $('#cover');
  if (foot)
    fill(foot,
      month.cover.map(
        (cover) => [sumRow(cover), opened.has(cover.shift) && cover.skills.map((one) => skillRow(cover, one))]));
}

function sumRow(cover) {
  const isOpen = opened.has(cover.shift), name = shiftName(cover.shift);
  const toggle = () => {
    if (!opened.delete(cover.shift)) opened.add(cover.shift);
    refreshCover();
    $(`#cover [data-shift="${cover.shift}"]`).focus();
  };
  const head = h('th', {scope: 'row', class: 'name', role: 'rowheader'},
    h('button', {
      type: 'button',
      class: 'cover-button',
      'aria-expanded': String(isOpen),
      'aria-label': `${name}, cover by skill`,
      'data-shift': cover.shift,
      onclick: toggle,
    },
      h('span', {'aria-hidden': 'true'}, isOpen ? '▾ ' : '▸ '), name));
  const cells = cover.days.map((numbers, at) => {
    const needed = cover.skills.filter((one) => one.days[at][2] || one.days[at][0]);
    const parts = needed.map((one) => `${skillName(one.skill)} ${rangeText(one.days[at])}`);
    return coverCell(daysShown()[at], numbers, `${name}: ${parts.join(', ') || 'nobody needed'}`, false);
  });
  return h('tr', {class: 'sum'}, head, cells, h('td', {class: 'balance first totals', colspan: 5}, totals(cover)));
}

function skillRow(cover, one) {
  const name = skillName(one.skill), head = h('th', {scope: 'row', class: 'name', role: 'rowheader'}, name);
  const cells = one.days.map(
    (numbers, at) => coverCell(daysShown()[at], numbers, `${shiftName(cover.shift)} ${name}: ${rangeText(numbers)}`, true));
  return h(
    'tr', {class: 'of-skill'}, head, cells, h('td', {class: 'balance first totals', colspan: 5}, 'has, of minimum–optimum'));
}

/** How many are there, of the minimum and the optimum. */
export const rangeText = ([have, least, optimum]) => `${have} of ${least === optimum ? least : `${least} to ${optimum}`}`;

function totals(cover) {
  const [short, low] = cover.sum;
  if (!month.state.has_roster) return null;
  if (!short && !low) return 'full';
  return [short > 0 && hole('bad', short, true), low > short && hole('low', low - short, true)];
}

/** How many are below the minimum or, in amber, below the optimum. */
export const hole = (type, count, isInline = false) =>
  h('b', {class: `hole ${type}${isInline ? ' inline' : ''}`}, `${type === 'bad' ? '▼' : '▽'}${count}`);

function coverCell(day, numbers, words, isOfSkill) {
  const [have, least, optimum, short, low] = numbers, isPlanned = month.state.has_roster;
  const type = !isPlanned ? 'needed' : short ? 'bad' : low ? 'low' : '';
  const lack = !isPlanned ? ''
    : short ? `. ${plural(short, 'nurse')} below the minimum`
                  : low ? `. ${low} below the optimum`
                        : '';
  const types = ['number', type, day % 7 === 0 && day !== month.window.first && 'week-start', dayOf(day).today && 'today'];
  const cell = h('td', {
    role: 'gridcell',
    class: types.filter(Boolean).join(' '),
    title: `${dayText(day)}, ${words}${lack}`,
    'aria-label': `${words}${lack}`
  });
  if (!isPlanned) return fill(cell, optimum || '');
  if (!optimum && !have) return cell;
  const number = short ? hole('bad', short) : low ? hole('low', low) : h('span', {}, have);
  return fill(cell, number, isOfSkill && h('small', {}, least === optimum ? optimum : `${least}–${optimum}`));
}
