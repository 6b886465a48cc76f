// What every view makes its nodes with. All text goes in as text nodes, never as HTML: a name may be anything.

const SVG = 'http://www.w3.org/2000/svg';
const SVG_TAGS = new Set(['svg', 'path', 'line', 'circle', 'text', 'g']);

/** The first element that a selector finds. */
export const $ = (selector, inside = document) => inside.querySelector(selector);
export const $$ = (selector, inside = document) => [...inside.querySelectorAll(selector)];

/** An element with attributes, listeners (on..) and children; null and false are left out of all three. */
export function h(tag, attributes = {}, ...children) {
  const element = SVG_TAGS.has(tag) ? document.createElementNS(SVG, tag) : document.createElement(tag);
  for (const [name, value] of Object.entries(attributes)) {
    if (value === undefined || value === null || value === false) continue;
    if (name.startsWith('on')) element.addEventListener(name.slice(2), value);
    else if (name === 'value' && 'value' in element) element.value = value;
    else if (name === 'checked' || name === 'open') element[name] = true;
    else element.setAttribute(name, value === true ? '' : value);
  }
  return append(element, children);
}

export function append(element, children) {
  for (const child of children.flat(Infinity)) {
    if (child === null || child === undefined || child === false || child === '') continue;
    element.append(child instanceof Node ? child : String(child));
  }
  return element;
}

/** Puts children in place of those that are there. */
export function fill(element, ...children) {
  element.replaceChildren();
  return append(element, children);
}

/** A name, which keeps its own direction and is cut by the style alone; the whole name is in its title. */
export const named = (name, type = '') => h('bdi', {class: `name-text ${type}`.trim(), title: name}, name);

const narrow = matchMedia('(max-width: 600px)');
/** Whether the window is as narrow as a phone's, where no table of the month is. */
export const isPhone = () => narrow.matches;
export const whenWidthChanges = (listener) => narrow.addEventListener('change', listener);

export const plural = (count, one, many = `${one}s`) => `${count} ${count === 1 ? one : many}`;

/** A change of a number, with its sign. */
export const signed = (number) => (number > 0 ? `+${number}` : number < 0 ? `−${- number}` : '±0');

/** A button. */
export const button = (text, onclick, attributes = {}) => h('button', {type: 'button', onclick, ...attributes}, text);

/** A table whose rows stay rows for a screen reader even where the style shows them as cards. */
export function table(attributes, heads, rows) {
  const labels = heads.map((head) => (typeof head === 'string' ? head : ''));
  const head = h('tr', {role: 'row'},
    heads.map((text) => (text === '' ? h('td', {role: 'cell'}) : h('th', {scope: 'col', role: 'columnheader'}, text))));
  rows.forEach((row) => [...row.children].forEach((cell, at) => {
    cell.setAttribute('role', cell.tagName === 'TH' ? 'rowheader' : 'cell');
    if (labels[at]) cell.dataset.label = labels[at];
    row.setAttribute('role', 'row');
  }));
  return h(
    'table', {role: 'table', ...attributes}, h('thead', {role: 'rowgroup'}, head), h('tbody', {role: 'rowgroup'}, rows));
}

/** A box that scrolls by itself and can be reached by the keyboard. */
export const scrolling = (label, content, type = '') =>
  h('div', {class: `scrolling ${type}`.trim(), tabindex: '0', role: 'region', 'aria-label': label}, content);

let timer = 0;

/** Says something in the live region. It is emptied first, so that the same words are said again. */
export function say(words) {
  const region = $('#live');
  region.textContent = '';
  clearTimeout(timer);
  timer = setTimeout(() => {
    region.textContent = words;
  }, 60);
}

/** Shows a line for some seconds, with a button if there is something to do about it, and says it. */
export function toast(words, act = null, label = '') {
  const line = h('div', {class: 'toast'}, h('span', {}, words));
  if (act)
    line.append(button(label, () => {
      line.remove();
      act();
    }, {class: 'quiet'}));
  fill($('#toasts'), line);
  say(words);
  setTimeout(() => line.remove(), 9000);
}

/** Opens a dialog, which gives the focus back when it is closed. */
export function dialogOf(title, ...children) {
  const dialog = h('dialog', {'aria-labelledby': 'dialog-title'}, h('h2', {id: 'dialog-title'}, title), children);
  const before = document.activeElement;
  dialog.addEventListener('close', () => {
    dialog.remove();
    if (before instanceof HTMLElement && before.isConnected) before.focus();
  });
  document.body.append(dialog);
  dialog.showModal();
  return dialog;
}

/** Asks in a dialog, and resolves to whether the answer is yes. */
export function ask(title, body, yes, no = 'Cancel') {
  return new Promise((resolve) => {
    const close = (answer) => {
      dialog.returnValue = answer;
      dialog.close();
    };
    const dialog = dialogOf(title, body,
      h('div', {class: 'row end'}, button(no, () => close('no')), button(yes, () => close('yes'), {class: 'primary'})));
    dialog.addEventListener('close', () => resolve(dialog.returnValue === 'yes'));
  });
}
