// Asks: all lines with their writer and date; adding and withdrawing; and the staff against the minimums.
import {get} from './api.js';
import {change, isLocked} from './changes.js';
import {$, ask, button, fill, h, named, scrolling, table, toast} from './dom.js';
import {currentView, register} from './views.js';
import {dayNumber, isoDate, month, nameOf, nearToday, nurses, version} from './ward.js';

const FILTERS = [['all', 'All'], ['unmet', 'Not met'], ['hard', 'Hard']];
const TIGHTEST = 7;
const known = {
  asks: [],
  kinds: [],
  staff: null,
  version: null
};
const wanted = {
  filter: 'all',
  allDays: false
};
const draft = {
  kind: 'off',
  nurse: 0,
  shift: '',
  skill: '',
  count: 1,
  first: '',
  last: '',
  line: '',
  byText: false
};

// ---- adding

function addForm() {
  const kind = known.kinds.find((one) => one.kind === draft.kind) ?? known.kinds[0];
  const turn = () => {
    draft.byText = !draft.byText;
    draw();
  };
  return h('form', {class: 'card add-ask', onsubmit: add, novalidate: true},
    h('div', {class: 'row spread'}, h('h2', {}, 'Add an ask'),
      button(draft.byText ? 'By fields' : 'As a line', turn, {class: 'quiet', id: 'ask-by'})),
    h('div', {class: 'row'}, draft.byText ? lineField(kind) : fieldsOf(kind),
      h('button', {class: 'primary', id: 'add-ask', disabled: isLocked()}, 'Add')),
    h('p', {class: 'bad-text', id: 'ask-fault', role: 'alert', hidden: true}));
}

/** What takes a field of the draft from a control. */
const taking = (name, isDrawn = false) => (event) => {
  draft[name] = event.target.value;
  if (isDrawn) draw();
};

const lineField = (kind) => h('label', {class: 'as-text'}, `As in the desk, such as ${kind.form}`,
  h('input', {type: 'text', id: 'ask-line', maxlength: 4000, value: draft.line, oninput: taking('line')}));

/** The fields that a kind of ask has. */
function fieldsOf(kind) {
  const has = (field) => kind.fields.includes(field), any = ['', 'any'];
  const numbered = (list) => list.map(({name}, at) => [at, name]);
  return [
    choiceField('What', 'kind', known.kinds.map((one) => [one.kind, `${one.name}${one.is_hard ? ' (hard)' : ''}`]), true),
    has('nurse') && choiceField('Nurse', 'nurse', nurses().map((nurse) => [nurse, nameOf(nurse)])),
    has('shift') && choiceField('Shift', 'shift', [...kind.kind === 'wish' ? [any] : [], ...numbered(month.shifts)]),
    has('skill') && choiceField('Skill', 'skill', [...kind.kind === 'need' ? [] : [any], ...numbered(month.skills)]),
    has('count') && h('label', {}, 'How many',
      h('input', {type: 'number', min: 0, max: 99, id: 'ask-count', value: draft.count, oninput: taking('count')})),
    dayField('first', has('last') ? 'From' : 'Day'),
    has('last') && dayField('last', 'To'),
  ];
}

function choiceField(label, name, list, isDrawn = false) {
  const options = list.map(([value, text]) => h('option', {value, selected: String(value) === String(draft[name])}, text));
  return h('label', {}, label, h('select', {id: `ask-${name}`, onchange: taking(name, isDrawn)}, options));
}

function dayField(name, label) {
  const choose = (event) => {
    draft[name] = event.target.value;
    if (name !== 'first' || draft.last >= draft.first) return;
    draft.last = draft.first;
    draw();
  };
  const field = h('input', {type: 'date', id: `ask-${name}`, min: isoDate(0), value: draft[name], onchange: choose});
  return h('label', {}, label, field);
}

const number = (text) => (text === '' || text === null ? null : Number(text));

function drafted() {
  if (draft.byText) return {line: draft.line};
  const {fields} = known.kinds.find((one) => one.kind === draft.kind), first = dayNumber(draft.first);
  const asked = {kind: draft.kind, first, last: fields.includes('last') ? dayNumber(draft.last) : first};
  if (fields.includes('nurse')) asked.nurse = number(draft.nurse);
  // (without 'any' the first shift and skill stand there when nothing was chosen)
  const optional = {shift: draft.kind === 'wish', skill: draft.kind !== 'need'};
  for (const field of ['shift', 'skill'])
    if (fields.includes(field)) asked[field] = number(draft[field]) ?? (optional[field] ? null : 0);
  if (fields.includes('count')) asked.count = number(draft.count);
  return asked;
}

async function add(event) {
  event.preventDefault();
  const refused = (error) => {
    showFault(error.message, error.answer.field);
    return true;
  };
  const answer = await change('/api/asks', {asks: [drafted()]}, {refused, words: false});
  if (!answer) return;
  draft.line = '';
  await loadAsks();
  toast(answer.asks.length === 1 ? `Ask ${answer.asks[0].number} added.`
                                 : `Asks ${answer.asks.map((one) => one.number).join(' and ')} added.`);
}

function showFault(words, field) {
  const fault = $('#ask-fault');
  fill(fault, words);
  fault.hidden = false;
  const control = field && $(`#ask-${field}`);
  control?.setAttribute('aria-invalid', 'true');
  control?.setAttribute('aria-describedby', 'ask-fault');
  control?.focus();
}

// ---- the list

const SIGNS = {
  unmet: '! ',
  broken: '▼ ',
  met: '○ ',
  kept: '■ '
};
const TYPES = {
  unmet: 'unmet',
  broken: 'unmet',
  met: 'met',
  kept: 'rule'
};
const isIn = (filter, one) =>
  filter === 'all' || (filter === 'unmet' ? one.state === 'unmet' || one.state === 'broken' : one.is_hard);

function askList() {
  const list = known.asks.filter((one) => isIn(wanted.filter, one))
                 .sort((first, second) => first.past - second.past || first.first - second.first);
  const filters = FILTERS.map(([filter,
    text]) => button(filter === 'all' ? text : `${text} (${known.asks.filter((one) => isIn(filter, one)).length})`, () => {
    wanted.filter = filter;
    draw();
  }, {'aria-pressed': String(wanted.filter === filter), id: `filter-${filter}`}));
  const heads = ['No.', 'Nurse', 'What', 'Days', 'State', 'Written by', 'When', ''];
  return h('section', {class: 'card'},
    h('div', {class: 'row spread'}, h('h2', {}, known.asks.length === 1 ? '1 ask' : `${known.asks.length} asks`),
      h('div', {class: 'choices', role: 'group', 'aria-label': 'Show'}, filters)),
    list.length ? scrolling('Asks, table', table({class: 'list asks'}, heads, list.map(askRow)))
                : h('p', {class: 'soft'}, known.asks.length ? 'None of this kind.' : 'No asks yet. Add one above.'));
}

function askRow(one) {
  return h('tr', {}, h('td', {class: 'number'}, one.number ?? ''),
    h('th', {scope: 'row'}, one.nurse === null ? 'the ward' : named(nameOf(one.nurse))),
    h('td', {title: one.line}, one.words), h('td', {class: 'nowrap'}, one.text),
    h('td', {}, h('span', {class: `status ${TYPES[one.state] ?? ''}`}, SIGNS[one.state] ?? '', one.state_words)),
    h('td', {}, one.author && h('bdi', {}, one.author)), h('td', {class: 'nowrap'}, one.at),
    h('td', {},
      one.number !== null &&
        button('Withdraw', () => withdraw(one),
          {class: 'quiet', disabled: isLocked(), 'aria-label': `Withdraw ask ${one.number}`})));
}

async function withdraw(one) {
  const body = h('p', {}, one.nurse !== null && named(nameOf(one.nurse)),
    ` ${one.words}, ${one.text}. The roster stays as it is. Undo brings the ask back.`);
  if (!await ask(`Withdraw ask ${one.number}?`, body, 'Withdraw')) return;
  const answer = await change(`/api/asks/${one.number}`, {}, {method: 'DELETE', words: false});
  if (!answer) return;
  await loadAsks();
  toast(`Ask ${one.number} withdrawn.`);
}

// ---- the staff

function staff() {
  const {skills, days, tightest, short} = known.staff,
                                 most = Math.max(1, ...skills.map(({needed, allowed}) => Math.max(needed, allowed)));
  const bar = (type, count) => {
    const line = h('i', {class: type});
    line.style.width = `${Math.round(count / most * 100)}%`;
    return line;
  };
  const skillRows = skills.map(
    ({name, needed, allowed}) => h('tr', {}, h('th', {scope: 'row'}, name), h('td', {}, needed), h('td', {}, allowed),
      h('td', {class: 'meter', 'aria-hidden': 'true'}, h('span', {}, bar('can', allowed), bar('needed', needed)))));
  const shown =
    wanted.allDays ? days : tightest.slice(0, TIGHTEST).map((day) => days.find((one) => one.day === day)).filter(Boolean);
  const dayRows =
    shown.map(({text, needed, can, spare}) => h('tr', {}, h('th', {scope: 'row'}, text), h('td', {}, needed),
                h('td', {}, can), h('td', {class: spare < 0 ? 'bad-text' : ''}, spare < 0 ? `▼ ${- spare}` : spare)));
  return h('section', {class: 'card'}, h('h2', {}, 'Staff against minimums'),
    short.map((words) => h('p', {class: 'bad-text'}, `▼ ${words}`)), h('h3', {}, 'Over the whole time, by skill'),
    table({class: 'numbers'}, ['Skill', 'Needed at least', 'Contracts allow', ''], skillRows),
    h('p', {class: 'soft small'}, 'A nurse with two skills counts for both.'),
    h('div', {class: 'row spread'}, h('h3', {}, wanted.allDays ? 'All days' : 'Tightest days'),
      button(wanted.allDays ? 'Tightest alone' : 'All days',
        () => {
          wanted.allDays = !wanted.allDays;
          draw();
        },
        {class: 'quiet', id: 'all-days'})),
    table({class: 'numbers'}, ['Day', 'Needed at least', 'Can come', 'Spare'], dayRows));
}

// ---- drawing

function draw() {
  if (currentView() !== 'asks' || !known.staff) return;
  const focused = document.activeElement?.id;
  fill($('#view-asks'), h('h2', {class: 'view-title'}, 'Asks'),
    h('div', {class: 'two'}, h('div', {}, addForm(), askList()), staff()));
  if (focused) document.getElementById(focused)?.focus({preventScroll: true});
}

async function loadAsks() {
  const of = version(), {asks, kinds, staff: found} = await get('/api/asks', {v: of});
  if (of !== version()) return;
  Object.assign(known, {asks, kinds, staff: found, version: of});
  draw();
}

async function open() {
  if (!draft.first) Object.assign(draft, {first: isoDate(nearToday()), last: isoDate(nearToday()), nurse: nurses()[0]});
  draw();
  await loadAsks();
}

function update() {
  if (known.version !== version()) loadAsks();
}

register('asks', {open, update});
