// The keys of the table. Letters are keys only here, since a ward's shifts may have any letter.
import {chooseShift, chooseSkill, disarm} from './changes.js';
import {openNurse} from './drawer.js';
import {reshadeRow, selectTo, shownNurses, stand} from './grid.js';
import {detail} from './detail.js';
import {standing} from './standing.js';
import {aimByKeys, drop, isPicked, leave, pickUp} from './swap.js';
import {month} from './ward.js';

const FAR = 100000, PAGE = 8;

/** How far a key moves, down and to the right. */
function stepOf(key, isBig) {
  return {
    ArrowLeft: [0, isBig ? -7 : -1],
    ArrowRight: [0, isBig ? 7 : 1],
    ArrowUp: [isBig ? -FAR : -1, 0],
    ArrowDown: [isBig ? FAR : 1, 0],
    PageUp: [-PAGE, 0],
    PageDown: [PAGE, 0],
    Home: [isBig ? -FAR : 0, -FAR],
    End: [isBig ? FAR : 0, FAR],
  }[key];
}

const clamp = (number, least, greatest) => Math.max(least, Math.min(greatest, number));

function move([down, right], isExtending) {
  const nurses = shownNurses(), {first, last} = month.window;
  const nurse = nurses[clamp(nurses.indexOf(standing.nurse) + down, 0, nurses.length - 1)];
  const day = clamp((standing.until ?? standing.day) + right, first, last);
  disarm();
  if (isPicked()) aimByKeys(nurse, day);
  else if (isExtending && !down) selectTo(day);
  else stand(nurse, day);
}

function leaveOrDeselect(event) {
  if (isPicked()) {
    event.stopPropagation();
    leave();
  } else if (standing.until !== null) {
    event.stopPropagation();
    standing.until = null;
    reshadeRow(standing.nurse);
    detail();
  }
}

function pressed(event) {
  if (!event.target.closest('td.day')) return;
  const {key} = event, isBig = event.ctrlKey || event.metaKey, step = stepOf(key, isBig);
  const shift = month.shifts.findIndex(({letter}) => letter.toUpperCase() === key.toUpperCase());
  if (key === 'Escape') {
    leaveOrDeselect(event);
    return;
  }
  if (step && !event.altKey) move(step, event.shiftKey);
  else if (key === 'Enter') {
    if (isPicked()) drop();
    else openNurse(standing.nurse);
  } else if (key === ' ') {
    if (isPicked()) drop();
    else pickUp(standing.nurse, standing.day, 'keys');
  } else if (isBig || event.altKey) return;
  else if (key === 'Delete' || key === 'Backspace') chooseShift(null);
  else if (shift >= 0) chooseShift(shift);
  else if (/^[1-9]$/.test(key) && month.skills[key - 1]) chooseSkill(Number(key) - 1);
  else return;
  event.preventDefault();
}

export const wireKeys = (table) => table.addEventListener('keydown', pressed);
