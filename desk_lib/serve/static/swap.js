// Swapping two days: picked up by the keys, dragged, or tapped, and shown before it is done. The preview is asked of the
// server when the target has rested for a moment; an answer for another target is dropped, and no number stands there
// before its answer.
import {Refused, send} from './api.js';
import {swapping} from './cell.js';
import {isLocked, lockedWords, swapCells} from './changes.js';
import {detail} from './detail.js';
import {$, append, button, fill, h, named, plural, say, signed} from './dom.js';
import {focusCell, reshade, reshadeRow, scrollTo, selectTo, stand} from './grid.js';
import {openNurse} from './drawer.js';
import {standing} from './standing.js';
import {chip, dayText, nameOf, version, windowOf} from './ward.js';

const REST = 60, DRAG = 6, LONG_PRESS = 450, MOST_BREACHES = 3;
// How the day was picked up: by keys, drag or tap; and the answer for the target, once it is there.
let how = '';
let tried = null;
let controller = null;
let timer = 0;
const NEXT = {
  keys: 'Arrows choose, Enter swaps, Escape leaves it.',
  drag: 'Let go on the other day to swap, Escape leaves it.',
  tap: 'Tap or click the other day.'
};
// Where a drag, or a long press, may begin.
let press = null;

// What is drawn again when a day is picked up, aimed at or left.
const listeners = new Set();

export const isPicked = () => swapping.from !== null;
export const whenPicked = (listener) => listeners.add(listener);
const notify = () => listeners.forEach((listener) => listener());

// ---- picking up and letting go

export function pickUp(nurse, day, by) {
  if (isLocked()) return say(lockedWords());
  leave(true);
  swapping.from = {nurse, day};
  how = by;
  standing.until = null;
  reshadeRow(nurse);
  const words = `Picked up ${nameOf(nurse)}, ${dayText(day)}. ${NEXT[by]}`;
  if (by !== 'drag') say(words);
  detail(words);
  notify();
  return undefined;
}

/** Leaves everything as it was. */
export function leave(isSilent = false) {
  const {from, to} = swapping;
  controller?.abort();
  clearTimeout(timer);
  swapping.from = swapping.to = tried = press = null;
  document.body.classList.remove('dragging');
  $('#preview').hidden = true;
  for (const place of [from, to])
    if (place) reshade(place.nurse, place.day);
  if (from && !isSilent) {
    say('Left as it was');
    detail();
  }
  if (from) notify();
}

/** Chooses the other day, and shows what a swap with it would change. */
export function aimAt(nurse, day, place) {
  const {from, to} = swapping;
  if (to && to.nurse === nurse && to.day === day) return;
  controller?.abort();
  clearTimeout(timer);
  tried = null;
  const isStart = from.nurse === nurse && from.day === day;
  swapping.to = isStart ? null : {nurse, day};
  if (to) reshade(to.nurse, to.day);
  reshade(nurse, day);
  notify();
  if (isStart) {
    $('#preview').hidden = true;
    return;
  }
  drawPreview(place);
  timer = setTimeout(() => askFor({nurse, day}, place), REST);
}

async function askFor(target, place) {
  controller = new AbortController();
  const {signal} = controller;
  try {
    const answer = await send('/api/try', {version: version(), swap: [swapping.from, target], ...windowOf()}, {signal});
    if (signal.aborted || swapping.to?.nurse !== target.nurse || swapping.to?.day !== target.day) return;
    tried = answer;
  } catch (error) {
    if (signal.aborted || error.name === 'AbortError') return;
    tried = {refused: error instanceof Refused ? error.message : lockedWords(), cells: []};
  }
  drawPreview(place);
  if (how === 'keys') say(`Swap with ${nameOf(target.nurse)}, ${dayText(target.day)}: ${spoken(tried)}`);
}

function spoken(answer) {
  if (answer.refused) return answer.refused;
  const change = `${answer.change < 0 ? 'minus' : 'plus'} ${Math.abs(answer.change)}`;
  return `${change}. ${answer.new[0] ? `New breach: ${answer.new[0]}` : 'Breaks no hard rule'}.`;
}

/** Does the swap. What the preview said of published days counts as said. */
export async function drop() {
  const {from, to} = swapping, answer = tried;
  leave(true);
  if (!from || !to) return detail();
  if (answer?.refused) {
    say(answer.refused);
    return detail(answer.refused);
  }
  const cells =
    (answer?.cells ?? []).map(({nurse, day, after}) => ({nurse, day, shift: after?.[0] ?? null, skill: after?.[1]}));
  await swapCells([from, to], cells, answer !== null);
  return undefined;
}

// ---- the preview

function drawPreview(place) {
  const box = $('#preview'), byTap = how === 'tap';
  fill(box, h('b', {}, 'If you swap these'), tried ? previewOf(tried) : h('p', {class: 'soft'}, '…'));
  if (byTap) {
    append(
      box, [h('div', {class: 'row'}, button('Swap', drop, {class: 'primary', disabled: !tried || Boolean(tried.refused)}),
             button('Leave it', () => leave()))]);
  } else {
    append(box,
      [h('p', {class: 'soft small'}, how === 'keys' ? 'Enter swaps · Esc leaves it' : 'Let go to swap · Esc leaves it')]);
  }
  box.classList.toggle('has-buttons', byTap);
  box.hidden = false;
  if (place) placeAt(box, place);
  else box.removeAttribute('style');
}

export function previewOf(answer) {
  const lines = h('ul', {class: 'swapped'},
    answer.cells.map((cell) => h('li', {}, named(nameOf(cell.nurse)), h('span', {}, cell.text), chip(cell.before, true), '→',
                       chip(cell.after, true))));
  if (answer.refused) return [lines, h('p', {class: 'bad-text'}, `✕ ${answer.refused} It can’t be dropped here.`)];
  const {soft, change, reasons} = answer, more = answer.new.length - MOST_BREACHES;
  return [
    lines,
    h('p', {class: 'change-of-penalty'}, h('b', {}, signed(change)), ` penalty ${soft.before} → ${soft.after}`),
    h('p', {class: 'soft'},
      change ? `${change > 0 ? 'Dearer' : 'Cheaper'} by: ${reasons.join(', ')}`
             : reasons.join(', ') || 'No soft rule changes.'),
    answer.new.slice(0, MOST_BREACHES).map((words) => h('p', {class: 'bad-text'}, `▼ New breach: ${words}`)),
    more > 0 && h('p', {class: 'bad-text'}, `and ${more} more`),
    answer.repaired.slice(0, 2).map((words) => h('p', {class: 'good-text'}, `✓ Repaired: ${words}`)),
    !answer.new.length && !answer.repaired.length && h('p', {class: 'good-text'}, '✓ Breaks no hard rule'),
    answer.published > 0 && h('p', {class: 'warn-text'}, `* ${plural(answer.published, 'published day')} would change`),
  ];
}

function placeAt(box, {x, y}) {
  const left = Math.max(8, Math.min(x + 18, innerWidth - box.offsetWidth - 8));
  const below = y + 26 + box.offsetHeight <= innerHeight;
  box.style.left = `${left}px`;
  box.style.top = `${below ? y + 26 : Math.max(8, y - box.offsetHeight - 18)}px`;
}

// ---- mouse and touch

const cellOf = (element) => {
  const cell = element?.closest?.('td.day');
  return cell && {nurse: Number(cell.dataset.nurse), day: Number(cell.dataset.day)};
};

export function wirePointer(table) {
  table.addEventListener('pointerdown', (event) => pressed(event, table));
  table.addEventListener('pointermove', moved);
  table.addEventListener('pointerup', (event) => released(event, true));
  table.addEventListener('pointercancel', (event) => released(event, false));
  table.addEventListener('dblclick', (event) => {
    const at = cellOf(event.target);
    if (at) openNurse(at.nurse);
  });
  table.addEventListener('contextmenu', (event) => {
    if (cellOf(event.target) && how === 'tap' && isPicked()) event.preventDefault();
  });
}

function pressed(event, table) {
  const at = cellOf(event.target);
  if (!at || event.button) return;
  if (isPicked() && how !== 'drag') {
    event.preventDefault();
    return tapTarget(at, event);
  }
  if (event.shiftKey && at.nurse === standing.nurse) {
    event.preventDefault();
    return selectTo(at.day);
  }
  press = {...at, x: event.clientX, y: event.clientY, isTouch: event.pointerType === 'touch'};
  if (press.isTouch) {
    // (a finger scrolls; one that rests picks up)
    timer = setTimeout(() => {
      if (press) {
        stand(at.nurse, at.day);
        pickUp(at.nurse, at.day, 'tap');
      }
    }, LONG_PRESS);
    return undefined;
  }
  event.preventDefault();
  stand(at.nurse, at.day);
  if (!isLocked()) table.setPointerCapture(event.pointerId);
  return undefined;
}

/** A tap on the other day, or on the same one, which leaves it. */
function tapTarget(at, event) {
  if (at.nurse === swapping.from.nurse && at.day === swapping.from.day) return leave();
  how = 'tap';
  stand(at.nurse, at.day, false);
  return aimAt(at.nurse, at.day, {x: event.clientX, y: event.clientY});
}

function moved(event) {
  if (!press) return;
  const distance = Math.hypot(event.clientX - press.x, event.clientY - press.y);
  if (press.isTouch) {
    if (distance > DRAG) {
      clearTimeout(timer);
      press = null;
    }
    return;
  }
  if (!isPicked()) {
    if (distance < DRAG || isLocked()) return;
    const {nurse, day} = press, start = press;
    pickUp(nurse, day, 'drag');
    press = start;
    document.body.classList.add('dragging');
  }
  const at = cellOf(document.elementFromPoint(event.clientX, event.clientY)), place = {x: event.clientX, y: event.clientY};
  if (!at) return;
  aimAt(at.nurse, at.day, place);
  if (!$('#preview').hidden) placeAt($('#preview'), place);
}

function released(event, isDrop) {
  const was = press;
  press = null;
  if (!was) return;
  if (was.isTouch) {
    clearTimeout(timer);
    if (isDrop && !isPicked()) stand(was.nurse, was.day);
    return;
  }
  if (!isPicked() || how !== 'drag') return;
  if (isDrop) drop();
  else leave();
}

// ---- keys

/** Moves the target by the keys. */
export function aimByKeys(nurse, day) {
  how = 'keys';
  const before = {...standing};
  Object.assign(standing, {nurse, day, until: null});
  reshade(before.nurse, before.day);
  reshade(nurse, day);
  focusCell();
  const cell = document.activeElement;
  if (cell?.closest('td.day')) scrollTo(cell);
  const {left, top} = cell.getBoundingClientRect();
  aimAt(nurse, day, {x: left, y: top});
}
