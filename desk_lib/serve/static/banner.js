// The banner below the head: another window was faster, the desk doesn't answer, the screen is read-only, a run failed.
import {change, isLocked, load, setGone} from './changes.js';
import {$, append, button, dialogOf, fill, h, named, say, table, toast} from './dom.js';
import {refreshTools} from './state.js';
import {show} from './views.js';
import {dayChanges, month, version} from './ward.js';

const shown = {
  kind: ''
};
const TIME = new Intl.DateTimeFormat('en-GB', {hour: '2-digit', minute: '2-digit'});

export function clearBanner(kind = shown.kind) {
  if (shown.kind !== kind) return;
  shown.kind = '';
  fill($('#banner'));
}

function showBanner(kind, type, title, words, ...buttons) {
  shown.kind = kind;
  const text = h('p', {}, h('b', {}, type === 'bad' ? `✕ ${title}` : title), ' ', words);
  fill($('#banner'),
    h('div', {class: `banner ${type}`, role: type === 'bad' ? 'alert' : 'note'}, text, h('div', {class: 'row'}, buttons)));
}

// ---- another window was faster

const goTo = (number) => button(`Go to version ${number}`, async () => {
  await load();
  clearBanner();
  toast(`Now at version ${version()}.`);
});

/** A version that was made elsewhere, while nothing here was lost by it. */
export function showNewer({number, at, note}) {
  if (shown.kind === 'conflict' || shown.kind === 'gone') return;
  showBanner('newer', 'plain', `Version ${number} was made in another window or by a command.`,
    `${at}: ${note}. This tab shows version ${version()}.`, goTo(number));
  say(`Version ${number} was made in another window.`);
}

/** A change that was refused, since it was made on an old version. Nothing is merged. */
export function showConflict(answer, request) {
  const {yours, theirs} = answer, now = theirs.version;
  const lost =
    yours.what.length ? `Your last change was not saved: ${yours.what.join('; ')}. ` : 'Your last change was not saved. ';
  const keeps = request.path.endsWith('/keep') || request.path.endsWith('/stop');
  showBanner('conflict', 'bad',
    `This tab shows version ${yours.version}. Version ${now.number} was made ${now.at} in another window.`,
    `${lost}Nothing was merged.`, button('Show both', () => showBoth(answer, request)),
    keeps && button('Put it among the candidates', () => retry({...request, body: {...request.body, as_candidate: true}})),
    goTo(now.number));
}

async function retry({path, body, method, file}) {
  await load();
  clearBanner();
  return change(path, body, {method, file});
}

function showBoth({yours, theirs}, request) {
  const number = theirs.version.number,
        rows = theirs.nurses.map(
          ({name, changes}) => h('tr', {}, h('th', {scope: 'row'}, named(name)), h('td', {}, dayChanges(changes, 8))));
  const list = (lines) => h('ul', {class: 'points'}, lines.map((line) => h('li', {}, line)));
  const dialog = dialogOf('Both changes', h('h3', {}, `Version ${number}, made ${theirs.version.at}: ${theirs.version.note}`),
    rows.length ? table({class: 'list'}, ['Nurse', 'What changed'], rows) : null,
    theirs.lines.length ? list(theirs.lines) : null,
    !rows.length && !theirs.lines.length && h('p', {}, 'It has the same roster and asks.'),
    h('h3', {}, `Yours, made on version ${yours.version} and not saved`), list(yours.what));
  const close = () => dialog.close();
  append(dialog, [h('div', {class: 'row end'}, button('Close', close), button(`Make mine on version ${number}`, () => {
    close();
    retry(request);
  }, {class: 'primary', disabled: isLocked()}))]);
}

// ---- the desk doesn't answer

let since = '';
let asking = 0;

export function showGone(hasEnded = false) {
  if (shown.kind === 'gone') return;
  since = TIME.format(new Date());
  setGone(true);
  const title = hasEnded ? 'The desk has ended.' : `The desk hasn’t answered since ${since}.`;
  showBanner('gone', 'bad', title,
    'All that this page called saved is in the ward’s file. Changes are off until it answers; looking and ' +
      'printing work.',
    button('Try now', tryAgain));
  refreshTools();
  asking = setInterval(tryAgain, 5000);
}

/** Loads the month; if the desk answers, all is as before. */
async function tryAgain(event) {
  try {
    await load();
  } catch {
    if (event) say('Still no answer');
  }
}

export function showBack() {
  if (shown.kind !== 'gone') return;
  clearInterval(asking);
  setGone(false);
  clearBanner();
  refreshTools();
  say('The desk answers again.');
}

// ---- the rest

export function showStanding() {
  if (month.ward.read_only) showBanner('read-only', 'plain', 'Read-only.', 'This screen shows the ward and changes nothing.');
  else if (!month.is_present)
    showBanner('earlier', 'plain', `This is version ${version()}, an earlier one.`, 'It can be looked at and printed.',
      button('Go to the present one', () => load().then(() => clearBanner())));
  else if (shown.kind === 'earlier') clearBanner();
}

export function showFailed(run) {
  if (shown.kind) return;
  showBanner('failed', 'bad', 'The run failed.', `${run.words} The roster is as it was: version ${version()}.`,
    button('Look at it', () => {
      clearBanner('failed');
      show('better');
    }));
}
