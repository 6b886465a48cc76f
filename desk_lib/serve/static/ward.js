// The ward as the server last described it. Nothing here is reckoned: every number, mark and word of a rule comes with an
// answer.
import {h} from './dom.js';

/** The last answer about the month, with the rows that changed since put in. */
export let month = null;
const rows = new Map();
// (which of the eight pairs of colours each shift has)
let tones = [];
const colours = new CSSStyleSheet();
document.adoptedStyleSheets = [...document.adoptedStyleSheets, colours];
// The pairs by where a shift lies in the day; the fourth is dark, and so it is for nights.
const NIGHT_TONE = 3, TONES = {left: 0, middle: 1, right: 2, whole: NIGHT_TONE};

/** Takes a whole answer about the month. */
export function adoptAll(answer) {
  month = answer;
  rows.clear();
  for (const row of answer.rows) rows.set(row.nurse, row);
  tones = tonesOf(answer.shifts);
  colours.replaceSync(answer.shifts.map((shift, at) => ruleOf(shift, tones[at])).join('\n'));
}

/** What of days is seen in every row. */
const shadesOf = (days) => days.map(({day, past, today, published}) => `${day} ${past} ${today} ${published}`).join('\n');

/** Takes the answer to a change: the nurses whose rows changed, or null if days did, as after a publication. */
export function adoptChanged(answer) {
  const sameDays = shadesOf(answer.days) === shadesOf(month.days);
  for (const row of answer.rows) rows.set(row.nurse, row);
  month = {...answer, rows: [...rows.values()]};
  return sameDays ? new Set(answer.rows.map((row) => row.nurse)) : null;
}

/** The pair of each shift by where it lies in the day; further ones at the same place have pairs of their own. */
function tonesOf(shifts) {
  const further = [4, 5, 6, 7, 0, 1, 2, 3], taken = new Set();
  return shifts.map((shift) => {
    const own = shift.is_night ? NIGHT_TONE : TONES[shift.place];
    const tone = taken.has(own) ? further.find((one) => !taken.has(one)) ?? own : own;
    taken.add(tone);
    return tone;
  });
}

/** The colours that a ward has chosen itself, with letters that can be read on them. */
const ruleOf = (shift, tone) => (/^#[0-9a-f]{6}$/i.test(shift.colour) && /^#[0-9a-f]{6}$/i.test(shift.ink)
    ? `.shift-${tone} { background: ${shift.colour}; color: ${shift.ink}; }`
    : '');

export const nurseRow = (nurse) => rows.get(nurse);
export const nameOf = (nurse) => rows.get(nurse)?.name ?? '';
export const nurses = () => month.rows.map((row) => row.nurse);
export const version = () => month.version.number;
export const isOpen = () => !month.ward.read_only && month.is_present;
/** The window of weeks that the tab shows, as changes name it. */
export const windowOf = () => ({from: month.window.from, weeks: month.window.weeks});

// ---- days
const WEEKDAYS = ['Mon', 'Tue', 'Wed', 'Thu', 'Fri', 'Sat', 'Sun'];
const MONTHS = ['Jan', 'Feb', 'Mar', 'Apr', 'May', 'Jun', 'Jul', 'Aug', 'Sep', 'Oct', 'Nov', 'Dec'];

export const isShown = (day) => day >= month.window.first && day <= month.window.last;
export const dayOf = (day) => month.days[day - month.window.first];
export const daysShown = () => month.days.map((one) => one.day);
export function dateOf(day) {
  const date = new Date(`${month.ward.start}T00:00:00Z`);
  date.setUTCDate(date.getUTCDate() + day);
  return date;
}
export const isoDate = (day) => dateOf(day).toISOString().slice(0, 10);
export const dayNumber = (iso) => Math.round((new Date(`${iso}T00:00:00Z`) - dateOf(0)) / 86400000);
/** A day as 'Wed 11 Nov', whether it is in the window or not. */
export function dayText(day) {
  const date = dateOf(day);
  return `${WEEKDAYS[(day % 7 + 7) % 7]} ${date.getUTCDate()} ${MONTHS[date.getUTCMonth()]}`;
}
export const shortDay = (day) => dayText(day).split(' ').slice(0, 2).join(' ');
export const daysText = (first, last) => (first === last ? dayText(first) : `${dayText(first)} to ${dayText(last)}`);
export const isPast = (day) => day < month.ward.today;
/** Today, or the nearest day of the ward. */
export const nearToday = () => Math.min(Math.max(month.ward.today, 0), month.ward.days - 1);

// ---- choices
export const choiceAt = (nurse, day) => rows.get(nurse).row[day - month.window.first] ?? null;
export const marksAt = (nurse, day) => rows.get(nurse).marks[day] ?? {};
export const skillName = (skill) => month.skills[skill]?.name ?? '';
export const shiftName = (shift) => (shift === null ? 'off' : month.shifts[shift].name);
export const choiceText = (choice) => (choice ? `${shiftName(choice[0])}, ${skillName(choice[1])}` : 'Off');

/** A shift's letter, or a dot for off; in running text the word 'off'. */
export function chip(choice, isWord = false) {
  if (!choice) return h('span', {class: `chip off${isWord ? ' word' : ''}`}, isWord ? 'off' : '·');
  const shift = month.shifts[choice[0]];
  return h('span', {class: `chip shift-${tones[choice[0]]} bar-${shift.place}`, title: choiceText(choice)}, shift.letter);
}

const requestState = ({met}) => (met === null ? 'request' : met ? 'request met' : 'request not met');

/** The words for a cell, which a reader hears after the names of the nurse and the day. */
export function wordsAt(nurse, day) {
  const marks = marksAt(nurse, day), words = [choiceText(choiceAt(nurse, day))];
  if (marks.absent) words.push(`absent (${marks.absent})`);
  for (const breach of marks.breach ?? []) words.push(`hard rule broken: ${breach.words}`);
  if (marks.request) words.push(`${requestState(marks.request)}: ${marks.request.words}`);
  for (const shift of marks.ban ?? []) words.push(`${shiftName(shift)} is banned`);
  if (marks.fixed) words.push(`fixed (${marks.fixed})`);
  if (marks.changed) words.push(`changed since publication, ${marks.changed.words}`);
  const {past, published} = dayOf(day);
  words.push(past ? 'past' : published ? 'published' : 'not published');
  return words;
}

/** The days on which two rosters differ, one after the other. */
export function dayChanges(changes, most = Infinity) {
  const shown = changes.slice(0, most).map(
    (change) => h('span', {class: 'day-change', title: change.words}, `${shortDay(change.day)} `, chip(change.before, true),
      h('span', {class: 'unseen'}, ' then '), h('span', {'aria-hidden': 'true'}, '→'), chip(change.after, true)));
  if (changes.length > most) shown.push(h('small', {class: 'soft'}, `and ${changes.length - most} more`));
  return h('span', {class: 'day-changes'}, shown);
}
