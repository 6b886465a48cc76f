// Starts the page: loads the month, opens the view of the address, listens to the keys of the whole page and to the server.
import './asks.js';
import './better.js';
import './ill.js';
import './month.js';
import './publish.js';
import {whenGone} from './api.js';
import {showBack, showGone, showNewer, showStanding} from './banner.js';
import {load, redo, settled, undo} from './changes.js';
import {$, fill, h} from './dom.js';
import {closeDrawer, refreshDrawer} from './drawer.js';
import {drawPhone} from './phone.js';
import {nextProblem} from './problems.js';
import {adoptRun, loadRuns} from './runs.js';
import {closeSigns} from './signs.js';
import {drawHead} from './state.js';
import {isPicked, leave, whenPicked} from './swap.js';
import {currentView, registerAlways} from './views.js';
import {version} from './ward.js';

// ---- the server's news

let news = null;

/** Listens while the tab is seen: a browser allows a host six connections, over all tabs. */
function listen() {
  news?.close();
  news = null;
  if (document.visibilityState === 'hidden') return;
  news = new EventSource('/api/events');
  const on = (name, take) => news.addEventListener(name, (event) => take(JSON.parse(event.data)));
  on('version', async (made) => {
    // (a version of this tab's own arrives with the answer to its change)
    await settled();
    if (made.number > version()) showNewer(made);
  });
  on('run', adoptRun);
  on('bye', () => {
    news.close();
    showGone(true);
  });
  news.onerror = () => {
    if (news?.readyState === EventSource.CLOSED) setTimeout(listen, 3000);
  };
}

// ---- keys of the whole page

function pressed(event) {
  const isBig = event.ctrlKey || event.metaKey, isTyping = event.target.closest?.('input, textarea, dialog'),
        key = event.key.toLowerCase();
  if (isBig && !isTyping && (key === 'z' || key === 'y')) {
    event.preventDefault();
    if (key === 'y' || event.shiftKey) redo();
    else undo();
  } else if (event.key === 'F8') {
    event.preventDefault();
    nextProblem(event.shiftKey ? -1 : 1);
  } else if (event.key === 'Escape' && !event.target.closest?.('dialog')) {
    if (isPicked()) leave();
    else if (!closeSigns()) closeDrawer();
  }
}

function pressedElsewhere(event) {
  const box = $('.signs[open]');
  if (box && !box.contains(event.target)) box.open = false;
}

// ---- the start

async function start() {
  whenGone(() => showGone(), showBack);
  registerAlways(drawHead);
  whenPicked(drawPhone);
  registerAlways(() => {
    refreshDrawer();
    showStanding();
  });
  document.addEventListener('keydown', pressed);
  document.addEventListener('pointerdown', pressedElsewhere);
  document.addEventListener('visibilitychange', listen);
  await load();
  listen();
  if (currentView() !== 'better' && currentView() !== 'ill') await loadRuns();
  document.documentElement.dataset.ready = '1';
}

start().catch((error) => {
  fill($('#banner'),
    h('div', {class: 'banner bad', role: 'alert'},
      h('p', {}, h('b', {}, '✕ The ward can’t be shown. '), String(error.message))));
  throw error;
});
