// The month view: the table on a wide screen, a day or a nurse at a time on a phone.
import {load} from './changes.js';
import {detail, detailBar} from './detail.js';
import {$, button, fill, h} from './dom.js';
import {buildGrid, repaintRows} from './grid.js';
import {drawPhone} from './phone.js';
import {register} from './views.js';
import {month} from './ward.js';

function open() {
  const host = $('#view-month');
  let holder = $('#grid-holder');
  if (!holder) {
    holder = h('div', {id: 'grid-holder'});
    fill(host, h('div', {class: 'window', id: 'window'}), h('div', {class: 'phone', id: 'phone'}), holder, detailBar());
  }
  drawWindow();
  buildGrid(holder);
  drawPhone();
  detail();
}

function update(nurses) {
  repaintRows(nurses);
  drawPhone();
  detail();
}

/** Over a longer time four weeks are shown, and buttons for earlier and later ones. */
function drawWindow() {
  const {from, weeks} = month.window, all = month.ward.weeks, line = $('#window');
  line.hidden = all <= weeks;
  const to = (week) => load(Math.max(0, Math.min(week, all - weeks)));
  fill(line, button('‹ Earlier', () => to(from - weeks), {disabled: from === 0}),
    h('span', {}, `Weeks ${from + 1} to ${from + weeks} of ${all}`),
    button('Later ›', () => to(from + weeks), {disabled: from + weeks >= all}));
}

register('month', {open, update});
