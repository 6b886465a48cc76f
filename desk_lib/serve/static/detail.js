// The bar below the table: the focused cell in words, and buttons for what the keys do.
import {setLabel} from './cell.js';
import {chooseShift, chooseSkill, isLocked} from './changes.js';
import {$, button, fill, h, named, plural} from './dom.js';
import {openNurse} from './drawer.js';
import {selection, standing} from './standing.js';
import {pickUp} from './swap.js';
import {show} from './views.js';
import {chip, choiceAt, daysText, isShown, month, nameOf, nurseRow, skillName, wordsAt} from './ward.js';

export const detailBar = () => h('div', {class: 'detail', id: 'detail'});

/** Draws the bar; a note stands in place of the cell's words. */
export function detail(note = '') {
  const bar = $('#detail'), {nurse, day} = standing;
  if (!bar || !nurseRow(nurse) || !isShown(day)) return;
  const [first, last] = selection(), isMany = last > first;
  const words = isMany ? `${plural(last - first + 1, 'day')} selected` : wordsAt(nurse, day).join(' · ');
  const text = h('div', {class: 'detail-text'}, h('b', {}, named(nameOf(nurse)), ', ', daysText(first, last)),
    h('span', {class: note ? 'note' : ''}, note || words));
  fill(bar, text,
    h('div', {class: 'detail-buttons', role: 'toolbar', 'aria-label': 'Set the selected days'},
      setButtons(isMany ? undefined : choiceAt(nurse, day), chooseShift), !isMany && skillChoice(nurse, day),
      !isMany && button('Swap…', () => pickUp(standing.nurse, standing.day, 'tap'), {disabled: isLocked()}),
      button('Absent…', () => show('ill', {nurse, first, last}), {disabled: isLocked()}),
      button('Why', () => openNurse(nurse))));
}

/** A button for each shift, and one for off. The choice is undefined if several days are selected. */
export function setButtons(choice, choose) {
  const of = (shift) => button(chip(shift === null ? null : [shift, 0], true), () => choose(shift), {
    class: 'set-button',
    title: setLabel(shift),
    'aria-label': setLabel(shift),
    disabled: isLocked(),
    'aria-pressed': String(choice !== undefined && (choice ? choice[0] : null) === shift),
  });
  return [...month.shifts.keys(), null].map(of);
}

/** The skills that a nurse may work a shift with, if there are several. */
export function skillChoice(nurse, day) {
  const choice = choiceAt(nurse, day), {skills} = nurseRow(nurse);
  if (!choice || skills.length < 2) return null;
  const options = skills.map((skill) => h('option', {value: skill, selected: choice[1] === skill}, skillName(skill)));
  return h('select',
    {'aria-label': 'Skill', disabled: isLocked(), onchange: (event) => chooseSkill(Number(event.target.value))}, options);
}
