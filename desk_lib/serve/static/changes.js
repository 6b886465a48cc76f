// Changes of the roster. They go to the server one after the other, each on the version that the tab has by then, which
// only the tab's own answers move. What the server refuses isn't sent again by itself.
import {Gone, Refused, get, send, sendFile} from './api.js';
import {showConflict} from './banner.js';
import {keyOf, pending, shownChoice} from './cell.js';
import {detail} from './detail.js';
import {$, fill, isPhone, say, toast} from './dom.js';
import {repaint} from './grid.js';
import {selection, standing} from './standing.js';
import {afterChange, afterLoad, currentView} from './views.js';
import {adoptAll, adoptChanged, choiceAt, isOpen, month, nurseRow, skillName, version, windowOf} from './ward.js';

const MOST_WEEKS = 4;
let queue = Promise.resolve();
let isGone = false;
// The change that the server asked to hear twice, since a published day is in it.
let armed = '';

export const setGone = (gone) => {
  isGone = gone;
};
export const isLocked = () => isGone || !isOpen();
export const lockedWords = () => (isGone ? 'Changes are off until the desk answers.'
    : month.ward.read_only ? 'This screen is read-only.'
                                         : 'This is an earlier version. Go to the present one to change it.');

/** Forgets that a change of a published day was pressed once. */
export const disarm = () => {
  armed = '';
};

// ---- the whole month

/** Loads the month anew: the present version, and the window that was shown unless another one is named. */
export async function load(from = month?.window.from ?? 0) {
  adoptAll(await get('/api/month', {from, weeks: MOST_WEEKS}));
  afterLoad();
}

/** Loads the window that has a day, if another one is shown. */
export async function loadDay(day) {
  const week = Math.trunc(day / 7), {from, weeks} = month.window;
  if (week < from || week >= from + weeks) await load(Math.max(0, Math.min(week, month.ward.weeks - MOST_WEEKS)));
}

// ---- one change

/**
 * Sends a change of the ward, and draws what it changed. Returns the answer, or null if it was refused; then what the server
 * said was shown, unless `refused` says that it deals with that by itself.
 */
export function change(path, body = {}, {method = 'POST', file = null, refused = () => false, words = null} = {}) {
  const result = queue.then(() => changeNow({path, body, method, file}, refused, words));
  queue = result.catch(() => null);
  return result;
}

async function changeNow(request, refused, words) {
  if (isLocked()) return note(lockedWords());
  const {path, body, method, file} = request, before = month, all = {...body, version: version(), ...windowOf()};
  try {
    const answer = file ? await sendFile(path, all, file) : await send(path, all, {method});
    disarm();
    if (answer.rows) afterChange(adoptChanged(answer));
    if (answer.done && words !== false) note(words ? words(answer, before) : `${answer.done}. ${costWords(before)}`);
    return answer;
  } catch (error) {
    if (error instanceof Gone) return note(lockedWords());
    if (!(error instanceof Refused)) throw error;
    if (error.kind === 'version') {
      detail();
      showConflict(error.answer, request);
    } else if (!refused(error)) note(error.message);
    return null;
  }
}

/** Waits until the changes that were made have been answered. */
export const settled = () => queue;

/** Says something of a change: in the bar below the table, or on the sheet of a day, and aloud. */
function note(words) {
  const sheet = $('#sheet-note');
  if (sheet) fill(sheet, words);
  detail(words);
  say(words);
  return null;
}

/** What the roster costs, next to what it cost before, and the hard breaches. */
export function costWords(before) {
  const now = month.state, was = before.state.soft, breaches = now.counts.breaches;
  const breachWords = `${breaches} hard ${breaches === 1 ? 'breach' : 'breaches'}`;
  if (now.soft === null) return '';
  return `Penalty ${now.soft}${now.soft === was || was === null ? '' : `, was ${was}`}. ${breachWords}.`;
}

// ---- cells

/** Sets cells, at once or at the second press if one of them is published. */
export async function setCells(cells, isSure = false) {
  const changing = cells.filter((cell) => !isSame(cell));
  if (!changing.length) return null;
  return sendCells({cells: changing}, changing, isSure);
}

/** Swaps two cells; the server says which skills the nurses work with. `after` are the cells of the preview. */
export const swapCells = (swap, after, isSure) => sendCells({swap}, after, isSure);

const isSame = ({nurse, day, shift, skill}) => {
  const choice = shownChoice(nurse, day);
  return shift === null ? choice === null
                        : choice !== null && choice[0] === shift && (skill === undefined || choice[1] === skill);
};

async function sendCells(request, cells, isSure) {
  if (isLocked()) return note(lockedWords());
  const key = JSON.stringify(request), published = isSure || armed === key;
  const asked = cells.map(({nurse, day, shift, skill}) => {
    const one = {key: keyOf(nurse, day), choice: shift === null ? null : [shift, skill ?? skillFor(nurse, day)]};
    pending.set(one.key, one);
    repaint(nurse, day);
    return one;
  });
  detail('Asking roster…');
  const arm = (error) => {
    if (error.kind === 'published') armed = key;
    return false;
  };
  const answer = await change('/api/change', {...request, published}, {refused: arm});
  // (the same cell may have been asked for something else meanwhile)
  for (const one of asked)
    if (pending.get(one.key) === one) pending.delete(one.key);
  cells.forEach(({nurse, day}) => repaint(nurse, day));
  return answer;
}

/** The skill that is shown until the server has chosen one. */
const skillFor = (nurse, day) => shownChoice(nurse, day)?.[1] ?? nurseRow(nurse).skills[0];

/** Gives the selected days a shift, or off if it is null. */
export function chooseShift(shift) {
  const [first, last] = selection(), {nurse} = standing, cells = [];
  for (let day = first; day <= last; day += 1) cells.push({nurse, day, shift});
  return setCells(cells);
}

export function chooseSkill(skill) {
  const {nurse, day} = standing, choice = choiceAt(nurse, day);
  if (!choice) return null;
  if (!nurseRow(nurse).skills.includes(skill)) return note(`${nurseRow(nurse).name} lacks the skill ${skillName(skill)}.`);
  return setCells([{nurse, day, shift: choice[0], skill}]);
}

// ---- undo

async function move(path, nothing) {
  const answer = await change(path, {}, {
    words: (said, before) => `${said.done}. ${costWords(before)}`,
    refused: (error) => {
      toast(error.kind === 'refused' ? nothing : error.message);
      return true;
    }
  });
  // (the bar below the table says it already)
  if (answer && (currentView() !== 'month' || isPhone())) toast(`${answer.done}.`);
}

export const undo = () => move('/api/undo', 'There is nothing to undo.');
export const redo = () => move('/api/redo', 'There is nothing to redo.');
