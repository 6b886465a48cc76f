// How the page asks the server. Every change names the version that the tab shows, and carries the token of the page.

const token = document.querySelector('meta[name="csrf"]')?.content ?? '';

/** An answer that says no: its status, its kind, and words that can be shown as they are. */
export class Refused extends Error {
  constructor(status, answer) {
    super(answer.words || `The desk answered ${status}.`);
    this.status = status;
    this.kind = answer.kind || '';
    this.answer = answer;
  }
}

/** No answer at all. */
export class Gone extends Error {}

const listeners = {
  gone: () => {},
  back: () => {}
};

/** What is called when the server doesn't answer, and when it does. */
export const whenGone = (gone, back) => Object.assign(listeners, {gone, back});

async function ask(path, options) {
  let response;
  try {
    response = await fetch(path, {credentials: 'same-origin', cache: 'no-store', ...options});
  } catch (error) {
    if (error.name === 'AbortError') throw error;
    listeners.gone();
    throw new Gone('The desk doesn’t answer.');
  }
  listeners.back();
  const answer = await response.json().catch(() => ({}));
  if (!response.ok) throw new Refused(response.status, answer);
  return answer;
}

/** A path with parameters; those that are null or undefined are left out. */
export function withParameters(path, parameters = {}) {
  const given = Object.entries(parameters).filter(([, value]) => value !== null && value !== undefined);
  return given.length ? `${path}?${new URLSearchParams(given)}` : path;
}

export const get = (path, parameters = {}, signal = undefined) => ask(withParameters(path, parameters), {signal});

export function send(path, body, {method = 'POST', signal = undefined} = {}) {
  const headers = {'Content-Type': 'application/json', 'X-CSRF-Token': token};
  return ask(path, {method, headers, body: JSON.stringify(body), signal});
}

/** Sends a file, as a form does. */
export function sendFile(path, parameters, file) {
  const form = new FormData();
  form.append('file', file);
  return ask(withParameters(path, parameters), {method: 'POST', headers: {'X-CSRF-Token': token}, body: form});
}
