// The month on a phone: a day with its shifts, or a nurse with her calendar. A tap opens the sheet of a day; days are
// swapped and selected by taps.
import {marksOf, shownChoice, swapping} from './cell.js';
import {chooseShift, disarm, isLocked, loadDay} from './changes.js';
import {hole, rangeText} from './cover.js';
import {setButtons, skillChoice} from './detail.js';
import {$, button, fill, h, isPhone, named, plural, say, whenWidthChanges} from './dom.js';
import {closeDrawer, openNurse} from './drawer.js';
import {isSelected, isStanding, selection, standing} from './standing.js';
import {aimAt, isPicked, leave, pickUp} from './swap.js';
import {show} from './views.js';
import {
  chip, choiceAt, dayOf, dayText, daysText, isPast, isShown, marksAt, month, nameOf, nearToday, nurseRow, nurses, shiftName,
  skillName, wordsAt,
} from './ward.js';

const WEEKDAYS = ['Mo', 'Tu', 'We', 'Th', 'Fr', 'Sa', 'Su'];
const phone = {
  mode: 'day',
  day: null,
  isSelecting: false,
  hasStart: false
};

export function drawPhone() {
  const host = $('#phone');
  if (!host || !isPhone()) return;
  if (phone.day === null || !isShown(phone.day)) phone.day = isShown(nearToday()) ? nearToday() : month.window.first;
  const focused = document.activeElement?.id;
  const choose = (mode) => button(mode === 'day' ? 'A day' : 'A nurse', () => {
    phone.mode = mode;
    drawPhone();
  }, {'aria-pressed': String(phone.mode === mode), id: `by-${mode}`});
  fill(host, h('div', {class: 'choices', role: 'group', 'aria-label': 'Show'}, choose('day'), choose('nurse')),
    phone.mode === 'day' ? dayView() : nurseView(), bar());
  if (focused && host.contains(document.getElementById(focused))) document.getElementById(focused).focus();
}

/** Shows a day; with a nurse, her sheet of that day. */
export function showDay(day, nurse = null) {
  phone.mode = 'day';
  phone.day = day;
  drawPhone();
  if (nurse !== null) openDay(nurse, day);
}

// ---- a day

async function toDay(day) {
  phone.day = Math.max(0, Math.min(day, month.ward.days - 1));
  await loadDay(phone.day);
  drawPhone();
}

function dayView() {
  const day = phone.day, monday = day - (day % 7), {long, past, published} = dayOf(day);
  const strip = h('div', {class: 'week-strip'}, WEEKDAYS.map((_, at) => dayButton(monday + at)));
  const pager =
    h('div', {class: 'pager'}, button('‹', () => toDay(day - 7), {'aria-label': 'Week before', disabled: monday === 0}),
      strip, button('›', () => toDay(day + 7), {'aria-label': 'Week after', disabled: monday + 7 >= month.ward.days}));
  const off = nurses().filter((nurse) => choiceAt(nurse, day) === null);
  return [
    pager,
    h('h2', {class: 'phone-day'}, long.replace(/ \d+$/, ''),
      h('small', {},
        past ? 'past'
          : published ? 'published'
                      : 'not published')),
    month.shifts.map((_, shift) => shiftSection(shift, day)),
    h('details', {class: 'phone-shift', open: isPicked()}, h('summary', {}, `Off: ${off.length}`), people(off, day))
  ];
}

function dayButton(day) {
  const {long, today, short: below, low: few} = dayOf(day), isPlanned = month.state.has_roster;
  const short = isPlanned ? below : 0, low = isPlanned && !short ? few : 0;
  const words = `${today ? 'Today, ' : ''}${long}${short ? `, ${short} below the minimum` : ''}${
    low ? `, ${low} below the optimum` : ''}`;
  const attributes =
    {'aria-pressed': String(day === phone.day), 'aria-label': words, class: today ? 'today' : '', id: `day-${day}`};
  return button(
    [
      h('span', {}, WEEKDAYS[day % 7]), h('b', {}, dayText(day).split(' ')[1]),
      short   ? hole('bad', short, true)
        : low ? hole('low', low, true)
              : h('i', {})
    ],
    () => toDay(day), attributes);
}

function shiftSection(shift, day) {
  const cover = month.cover.find((one) => one.shift === shift), at = day - month.window.first;
  const working = nurses().filter((nurse) => choiceAt(nurse, day)?.[0] === shift);
  const lacks = cover.skills.filter((one) => month.state.has_roster && one.days[at][4]).map((one) => {
    const [, , , short, low] = one.days[at];
    return h('p', {class: short ? 'bad-text' : 'warn-text'},
      `${short ? `▼ ${short} below the minimum` : `▽ ${low} below the optimum`}: ${skillName(one.skill)}`);
  });
  const head = h('h3', {}, chip([shift, 0]), shiftName(shift), h('small', {}, rangeText(cover.days[at])));
  return h('section', {class: 'phone-shift'}, head, lacks,
    working.length ? people(working, day) : h('p', {class: 'soft'}, 'Nobody'));
}

function people(found, day) {
  const isAimed = (nurse, place) => place !== null && place.nurse === nurse && place.day === day;
  return h('ul', {},
    found.map((nurse) =>
                h('li', {},
                  button(
                    [
                      named(nameOf(nurse)), marksOf(nurse, day, 'inline'),
                      h('small', {},
                        marksAt(nurse, day).absent ? 'absent'
                          : choiceAt(nurse, day) ? skillName(choiceAt(nurse, day)[1])
                                                   : '')
                    ],
                    () => tapped(nurse, day), {
                      class: 'person',
                      id: `person-${nurse}`,
                      'aria-label': `${nameOf(nurse)}. ${wordsAt(nurse, day).join('. ')}`,
                      'aria-pressed': isPicked() ? String(isAimed(nurse, swapping.from) || isAimed(nurse, swapping.to)) : null
                    }))));
}

// ---- a nurse

function nurseView() {
  const {nurse} = standing, all = nurses(), at = all.indexOf(nurse);
  const go = (to) => {
    Object.assign(standing, {nurse: all[(to + all.length) % all.length], until: null});
    phone.hasStart = false;
    drawPhone();
  };
  const choice =
    h('select', {'aria-label': 'Nurse', id: 'phone-nurse', onchange: (event) => go(all.indexOf(Number(event.target.value)))},
      all.map((one) => h('option', {value: one, selected: one === nurse}, nameOf(one))));
  const {balance, cost} = nurseRow(nurse);
  return [
    h('div', {class: 'pager'}, button('‹', () => go(at - 1), {'aria-label': 'Nurse before'}), choice,
      button('›', () => go(at + 1), {'aria-label': 'Nurse after'})),
    h('div', {class: 'calendar'}, WEEKDAYS.map((name) => h('span', {'aria-hidden': 'true'}, name)),
      month.days.map(({day}) => calendarDay(nurse, day))),
    balance &&
      h('p', {class: 'soft'},
        `${plural(balance.shifts, 'shift')}, ${plural(balance.nights, 'night')}, ` +
          `${plural(balance.weekends, 'weekend')}, ${plural(balance.unmet, 'request')} not met, costs ${cost ?? '–'}`),
    h('div', {class: 'row'}, button('Why, and her balance', () => openNurse(nurse)),
      !isPicked() &&
        button(phone.isSelecting ? 'Done selecting' : 'Select days', toggleSelecting,
          {'aria-pressed': String(phone.isSelecting), id: 'select-days'}))
  ];
}

function calendarDay(nurse, day) {
  const {long, past, published, today} = dayOf(day),
                                types = ['calendar-day', past && 'past', published && !past && 'published', today && 'today'];
  const isPressed = phone.isSelecting ? phone.hasStart && (isSelected(nurse, day) || isStanding(nurse, day))
    : isPicked() ? [swapping.from, swapping.to].some((place) => place?.nurse === nurse && place.day === day)
                 : null;
  const choice = shownChoice(nurse, day);
  return button(
    [
      h('small', {}, dayText(day).split(' ')[1]),
      marksAt(nurse, day).absent && !choice ? h('span', {class: 'chip away'}, 'abs') : chip(choice), marksOf(nurse, day)
    ],
    () => tapped(nurse, day), {
      class: types.filter(Boolean).join(' '),
      id: `calendar-${day}`,
      'aria-label': `${long}. ${wordsAt(nurse, day).join('. ')}`,
      'aria-pressed': isPressed === null ? null : String(isPressed)
    });
}

// ---- taps

function tapped(nurse, day) {
  if (isPicked()) {
    if (swapping.from.nurse === nurse && swapping.from.day === day) leave();
    else aimAt(nurse, day, null);
  } else if (phone.isSelecting) selectDay(nurse, day);
  else openDay(nurse, day);
}

function toggleSelecting() {
  phone.isSelecting = !phone.isSelecting;
  phone.hasStart = false;
  standing.until = null;
  drawPhone();
  if (phone.isSelecting) say('Tap the first day, then the last.');
}

function selectDay(nurse, day) {
  disarm();
  if (!phone.hasStart || standing.until !== null) Object.assign(standing, {nurse, day, until: null});
  else standing.until = day;
  phone.hasStart = true;
  drawPhone();
  say(`${daysText(...selection())} selected`);
}

/** The bar at the foot: what is selected or picked up, and what can be done with it. */
function bar() {
  if (isPicked() && swapping.to === null) {
    const {nurse, day} = swapping.from;
    return h('div', {class: 'phone-bar'},
      h('p', {}, h('b', {}, named(nameOf(nurse)), `, ${dayText(day)}`), ' is swapped with the nurse or day that you tap.'),
      h('div', {class: 'row'}, button('Leave it', () => leave(), {id: 'leave-swap'})));
  }
  if (!phone.isSelecting || phone.mode !== 'nurse') return null;
  if (!phone.hasStart) return h('div', {class: 'phone-bar'}, h('p', {}, 'Tap the first day, then the last.'));
  const [first, last] = selection();
  return h('div', {class: 'phone-bar'}, h('b', {}, daysText(first, last)), h('p', {class: 'warn-text', id: 'sheet-note'}),
    h('div', {class: 'row'}, setButtons(undefined, chooseShift)),
    h('div', {class: 'row'},
      button('Absent…', () => show('ill', {nurse: standing.nurse, first, last}), {disabled: isLocked()}),
      button('Done', toggleSelecting)));
}

// ---- the sheet of a day

function openDay(nurse, day) {
  Object.assign(standing, {nurse, day, until: null});
  disarm();
  openNurse(nurse, () => daySheet(nurse, day));
}

function daySheet(nurse, day) {
  if (!isShown(day)) return null;
  const away = () => {
    closeDrawer(false);
    show('ill', {nurse, first: day, last: day});
  };
  const swap = () => {
    closeDrawer(false);
    pickUp(nurse, day, 'tap');
  };
  const buttons = isPast(day) ? h('p', {class: 'soft'}, 'This day is past and stays as it was.') : [
    h('div', {class: 'row'}, setButtons(choiceAt(nurse, day), chooseShift), skillChoice(nurse, day)),
    h('div', {class: 'row'}, button('Swap with…', swap, {disabled: isLocked()}),
      button('Absent…', away, {disabled: isLocked()}))
  ];
  return h('section', {class: 'edit-day'}, h('h3', {}, dayText(day)), h('p', {}, wordsAt(nurse, day).join(' · ')),
    h('p', {id: 'sheet-note', class: 'warn-text'}), buttons);
}

whenWidthChanges(() => {
  if (month) drawPhone();
});
