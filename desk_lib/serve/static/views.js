// The five views: which one is shown, and which parts are drawn again after a change.
import {$, $$} from './dom.js';

const views = new Map();
const always = [];
let current = document.body.dataset.view || 'month';

/**
 * A view has `open(given)`, which draws all of it, and `update(nurses)`, after a change of some nurses' rows, or of all if it is
 * null. It may have `close()`, for when another view is shown.
 */
export const register = (name, view) => views.set(name, view);
/** What is drawn at each change, whatever view is shown. */
export const registerAlways = (draw) => always.push(draw);
export const currentView = () => current;

const drawAlways = () => always.forEach((draw) => draw(current));

function place() {
  for (const section of $$('main > .view')) section.hidden = section.id !== `view-${current}`;
}

/** Goes to a view. */
export function show(name, given = null, isBack = false) {
  if (name !== current) views.get(current)?.close?.();
  current = name;
  if (!isBack) history.pushState(null, '', `/${name}`);
  drawAlways();
  place();
  views.get(name).open(given);
  scrollTo(0, 0);
  $('#main').scrollTop = 0;
  const title = $(`#view-${name} h2`);
  if (title && name !== 'month') {
    title.tabIndex = -1;
    title.focus({preventScroll: true});
  }
}

/** Draws all after the month was loaded. */
export function afterLoad() {
  drawAlways();
  place();
  views.get('month').open();
  if (current !== 'month') views.get(current).open();
}

/** Draws what a change changed. The table of the month is kept up to date while another view is shown. */
export function afterChange(nurses) {
  drawAlways();
  views.get('month').update(nurses);
  if (current !== 'month') views.get(current).update(nurses);
}

addEventListener('popstate', () => {
  const name = location.pathname.slice(1);
  if (views.has(name)) show(name, null, true);
});
