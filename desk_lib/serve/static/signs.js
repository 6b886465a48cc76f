// What the signs of the month mean, and its keys.
import {$, h} from './dom.js';
import {chip, month} from './ward.js';

const KEYS = () => [['Arrows', 'move'],
  [month.shifts.map(({letter}) => letter).join(' '), 'set a shift'],
  [month.skills.map((_, at) => at + 1).join(' '), 'set the skill'],
  ['Delete', 'off'],
  ['Space', 'pick up, then arrows, then Enter to swap'],
  ['Shift + arrows', 'select days of a nurse'],
  ['Enter', 'the nurse, and why the row costs'],
  ['F8, Shift + F8', 'next and last problem'],
  ['Ctrl + arrows', 'a week on'],
  ['Ctrl + Z, Ctrl + Y', 'undo, redo'],
  ['Esc', 'leave it, close'],
];

/** A box that opens; it stays open over a redraw. */
export function signs(isOpen = false) {
  const mark = (type, text) => h('span', {class: `mark ${type} inline`}, text),
        swatch = (type) => h('span', {class: `swatch ${type}`});
  const hole = (type, text) => h('b', {class: `hole ${type} inline`}, text);
  const meanings = [
    ...month.shifts.map(({name, begins, ends}, at) => [chip([at, 0]), begins ? `${name}, ${begins} to ${ends}` : name]),
    [chip(null), 'off'],
    [mark('request unmet', '!'), 'request not met'],
    [mark('request', '○'), 'request met'],
    [mark('ban', '≠'), 'a shift is banned that day'],
    [h('span', {class: 'chip away'}, 'abs'), 'absent'],
    [mark('rule', 'H3'), 'hard rule broken, by its name'],
    [mark('changed', '*'), 'changed since publication'],
    [h('b', {}, '[ ]'), 'fixed by an ask'],
    [swatch('past'), 'past'],
    [swatch('published'), 'published'],
    [hole('bad', '▼1'), 'below the minimum'],
    [hole('low', '▽1'), 'below the optimum'],
  ];
  return h('details', {class: 'signs', open: isOpen},
    h('summary', {}, h('span', {class: 'long'}, 'Signs and keys'), h('span', {class: 'short'}, 'Signs')),
    h('div', {class: 'signs-box'}, h('ul', {}, meanings.map(([sign, words]) => h('li', {}, sign, h('span', {}, words)))),
      h('dl', {class: 'keys'}, KEYS().map(([key, words]) => [h('dt', {}, h('kbd', {}, key)), h('dd', {}, words)]))));
}

/** Closes the box, and says whether it was open. */
export function closeSigns() {
  const box = $('.signs[open]');
  if (!box) return false;
  box.open = false;
  $('summary', box).focus();
  return true;
}
