// Publish and go back: what changed since publication, files to print or send, versions and what differs between two, next
// month.
import {Refused, get, send, withParameters} from './api.js';
import {change, isLocked} from './changes.js';
import {$, ask, button, fill, h, named, plural, say, scrolling, signed, table, toast} from './dom.js';
import {currentView, register, show} from './views.js';
import {dateOf, dayChanges, month, version} from './ward.js';

const FILES = [
  ['page', 'Page with costs', true], ['notice', 'Page for the wall', true], ['months', 'Each nurse’s month', true],
  ['ics', 'Calendars', false], ['csv', 'CSV', false], ['backup', 'A copy of the ward', false]
];
const DAYS = 7, DAYS_COMPARED = 10;
const MONTH = new Intl.DateTimeFormat('en-GB', {month: 'long', timeZone: 'UTC'});
const known = {
  publish: null,
  versions: [],
  difference: null,
  version: null
};
const compared = {
  first: null,
  second: null
};

const changeTable = (differs, most) => table({class: 'list changes'}, ['Nurse', 'Days', 'What changes'],
  differs.map(({name, changes}) => h('tr', {}, h('th', {scope: 'row'}, named(name)),
                h('td', {class: 'number'}, changes.length), h('td', {}, dayChanges(changes, most)))));

// ---- publish

function publishCard() {
  const {published, changes, days, nurses, choices, refused} = known.publish;
  const on = published ? ['On the wall: ', h('b', {}, `version ${published.version}`), `, up to ${published.text}. `]
                       : 'Nothing is published. ';
  const since = !published ? null
    : days ? h('b', {}, `${plural(days, 'published day')} of ${plural(nurses, 'nurse')} changed since.`)
                           : 'Nothing has changed since.';
  const until = h('select', {id: 'until'},
    choices.map(({day, text}, at) => h('option', {value: day, selected: at === choices.length - 1}, text)));
  return h('section', {class: 'card'}, h('h2', {}, 'Publish'), h('p', {}, on, since),
    days > 0 && scrolling('Changes since publication', changeTable(changes, DAYS)),
    refused && h('p', {class: 'warn-text'}, refused),
    h('div', {class: 'card-controls screen-only'},
      h('div', {class: 'row'}, h('label', {}, 'Publish up to', until),
        button('Publish…', publish, {class: 'primary', id: 'publish', disabled: isLocked() || !choices.length})),
      h('h3', {}, 'To print or send'),
      h('div', {class: 'row'}, days > 0 && button('Print these changes', () => print()),
        button('Print the month', printMonth, {id: 'print'}), FILES.map(fileLink))));
}

const fileLink = ([name, text, isPage]) => h('a', {
  class: 'button',
  href: withParameters(`/export/${name}`, {v: version(), inline: isPage ? 1 : null}),
  target: isPage ? '_blank' : null,
  rel: isPage ? 'noopener' : null,
  download: isPage ? null : true
},
  text);

function printMonth() {
  show('month');
  requestAnimationFrame(() => print());
}

async function publish() {
  const choice = $('#until'), until = Number(choice.value), text = choice.selectedOptions[0].textContent;
  const body = h('ul', {class: 'points'}, [
    `Days up to ${text} are then kept by every run.`,
    'The plan that is on the wall now stays as a version, and can be printed again.',
    'The desk sends it to nobody: print or send it yourself.'
  ].map((words) => h('li', {}, words)));
  if (!await ask(`Publish up to ${text}?`, body, 'Publish')) return;
  let fault = null;
  const refused = (error) => {
    fault = error;
    return true;
  };
  let answer = await change('/api/publish', {until, force: false}, {refused, words: false});
  if (fault?.answer.can_force &&
    await ask('Publish a roster that breaks hard rules?', h('p', {}, fault.message), 'Publish it all the same')) {
    answer = await change('/api/publish', {until, force: true}, {words: false});
  } else if (fault) toast(fault.message);
  if (answer) toast(`Published up to ${text}. It is version ${version()}.`);
}

// ---- versions

function versionsCard() {
  const rows = known.versions.map((one) => {
    const isCurrent = one.number === version();
    return h('tr', {class: isCurrent ? 'is-current' : ''},
      h('td', {class: 'compare'}, compareChoice(one, 'first', 'A'), compareChoice(one, 'second', 'B')),
      h('th', {scope: 'row', class: 'number'}, one.number), h('td', {class: 'nowrap'}, one.at),
      h('td', {}, h('span', {class: 'what'}, one.note),
        isPublished(one) && h('span', {class: 'status published'}, '■ on the wall'),
        isCurrent && h('span', {class: 'status'}, 'working')),
      h('td', {class: 'number'}, one.penalty ?? '–'),
      h('td', {},
        !isCurrent &&
          button('Go back to it', () => goBack(one),
            {class: 'quiet', disabled: isLocked(), 'aria-label': `Go back to version ${one.number}`})));
  });
  return h('section', {class: 'card'},
    h('div', {class: 'row spread'}, h('h2', {}, 'Versions'), h('span', {class: 'soft'}, 'Nothing is ever deleted')),
    scrolling('Versions, table', table({class: 'list versions'}, ['Compare', 'No.', 'When', 'What', 'Penalty', ''], rows)),
    fileForm());
}

const isPublished = (one) => known.publish.published?.version === one.number;

const compareChoice = (one, which, letter) => h('label', {}, h('input', {
  type: 'radio',
  name: `version-${which}`,
  checked: compared[which] === one.number,
  id: `${which}-${one.number}`,
  'aria-label': `Version ${one.number} as ${which === 'first' ? 'the first' : 'the second'} to compare`,
  onchange: () => {
    compared[which] = one.number;
    compare().catch((error) => say(error.message));
  }
}),
  letter);

async function goBack(one) {
  const body = h('p', {},
    `Its roster becomes a new version on top, number ${
      version() + 1}. Nothing is deleted, and what is published stays published.`);
  if (!await ask(`Go back to version ${one.number}?`, body, 'Go back')) return;
  const answer = await change('/api/back', {number: one.number}, {
    words: false,
    refused: (error) => {
      toast(error.message);
      return true;
    }
  });
  if (answer) toast(`Version ${version()} has the roster of version ${one.number}.`);
}

/** A roster that stands in a file, as a table of a spreadsheet or as solutions. */
function fileForm() {
  const input = h('input', {type: 'file', id: 'roster-file', disabled: isLocked(), onchange: () => takeFile(input)});
  return h('details', {class: 'screen-only'}, h('summary', {}, 'Take a roster from a file'),
    h('p', {class: 'soft'},
      'A table that the desk wrote as CSV, or solutions as roster writes them. It becomes a new version.'),
    h('label', {}, 'File ', input), h('p', {class: 'bad-text', id: 'file-fault', role: 'alert'}));
}

async function takeFile(input, force = 0) {
  if (!input.files.length) return;
  let fault = null;
  const refused = (error) => {
    fault = error;
    return true;
  };
  const answer = await change('/api/roster', {force}, {file: input.files[0], refused, words: false});
  if (answer) toast(`Taken. Version ${version()}, penalty ${month.state.soft ?? '–'}.`);
  else if (fault?.answer.can_force &&
    await ask('Take a roster that breaks hard rules?', h('p', {}, fault.message), 'Take it all the same')) {
    await takeFile(input, 1);
  } else if (fault) fill($('#file-fault'), fault.message);
}

// ---- what differs

function compareCard() {
  const {difference} = known;
  if (!difference) return null;
  const {from, to, days, nurses, lines} = difference;
  const isCosted = from.penalty !== null && to.penalty !== null;
  const cost = isCosted ? [h('b', {}, `${from.penalty} → ${to.penalty}`), ` (${signed(to.penalty - from.penalty)}). `] : null;
  return h('section', {class: 'card', id: 'compared'}, h('h2', {}, `Version ${from.number} against version ${to.number}`),
    h('p', {}, cost,
      days ? `${plural(days, 'day')} of ${plural(nurses.length, 'nurse')} differ.` : 'The rosters are the same.'),
    lines.length > 0 && h('ul', {class: 'points'}, lines.map((line) => h('li', {}, line))),
    days > 0 && scrolling('What differs', changeTable(nurses, DAYS_COMPARED)));
}

async function compare() {
  const {first, second} = compared;
  known.difference = first === second ? null : await get(`/api/diff/${first}/${second}`);
  draw();
}

// ---- next month

function nextCard() {
  const name = `${MONTH.format(dateOf(month.ward.days + 14)).toLowerCase()}.ward`;
  return h('section', {class: 'card screen-only'}, h('h2', {}, 'Next month'),
    h('p', {},
      'Makes the ward of the month after: nurses, contracts, this month’s needs, history and asks for later days are carried '
        + 'over; who is gone is left out. This month stays as it is.'),
    h('div', {class: 'row'}, h('label', {}, 'Its file', h('input', {type: 'text', id: 'next-name', value: name})),
      h('label', {}, h('input', {type: 'checkbox', id: 'next-carry'}), 'keep the totals of assignments and weekends'),
      button('Lay it out', layOut, {id: 'next', disabled: isLocked()})),
    h('div', {id: 'next-answer', role: 'status'}));
}

async function layOut() {
  const answered = $('#next-answer');
  try {
    const {file, words, command} =
      await send('/api/next', {version: version(), name: $('#next-name').value, carry: $('#next-carry').checked});
    fill(answered, words.map((line) => h('p', {class: 'good-text'}, line)),
      h('div', {class: 'row'}, button(`Open ${file}`, () => openNext(file), {class: 'primary', id: 'open-next'}),
        h('span', {class: 'soft'}, 'or later by ', h('code', {}, command))));
  } catch (error) {
    if (!(error instanceof Refused)) throw error;
    fill(answered, h('p', {class: 'bad-text'}, error.message));
  }
}

/** Goes on to the ward of the next month, which the desk serves as well until it ends. */
async function openNext(file) {
  try {
    location.assign((await send('/api/open', {file})).link);
  } catch (error) {
    if (!(error instanceof Refused)) throw error;
    toast(error.message);
  }
}

// ---- drawing

function draw() {
  if (currentView() !== 'publish' || !known.publish) return;
  const view = $('#view-publish'), title = h('h2', {class: 'view-title'}, 'Publish and go back'),
        focused = document.activeElement?.id;
  if (!month.state.has_roster) {
    fill(view, title,
      h('section', {class: 'card empty'}, h('h2', {}, 'Nothing to publish yet'),
        h('p', {}, 'Plan a roster first. It is published when you say so, and never by itself.'),
        button('Plan it', () => show('better', {kind: 'plan'}), {class: 'primary'})),
      fileForm());
    return;
  }
  fill(view, title, h('div', {class: 'two right-wide'}, publishCard(), versionsCard()), compareCard(), nextCard());
  if (focused) document.getElementById(focused)?.focus({preventScroll: true});
}

async function loadAll() {
  const of = version(), [publishing, {versions}] = await Promise.all([get('/api/publish'), get('/api/versions')]);
  if (of !== version()) return;
  Object.assign(known, {publish: publishing, versions, version: of, difference: null});
  const there = new Set(versions.map((one) => one.number));
  if (!there.has(compared.first) || compared.second !== of) {
    compared.second = of;
    compared.first =
      publishing.published && publishing.published.version !== of ? publishing.published.version : Math.max(1, of - 1);
  }
  draw();
  await compare();
}

async function open() {
  draw();
  await loadAll();
}

function update() {
  if (known.version !== version()) loadAll().catch((error) => say(error.message));
}

register('publish', {open, update});
