// What a planner looks for: hard breaches, holes of the cover, requests that aren't met, in the order in which the server
// lists them.
import {loadDay} from './changes.js';
import {detail} from './detail.js';
import {isPhone, say} from './dom.js';
import {closeDrawer} from './drawer.js';
import {showAll, showHole, shownNurses, stand} from './grid.js';
import {showDay} from './phone.js';
import {currentView, show} from './views.js';
import {month} from './ward.js';

let at = -1;

export const places = () => [...month.state.breaches, ...month.state.low, ...month.state.unmet];

/** Goes to the cell of a problem, or to the slot. */
export async function jump(place) {
  closeDrawer(false);
  if (currentView() !== 'month') show('month');
  await loadDay(place.day);
  if (isPhone()) {
    showDay(place.day, place.nurse);
    return;
  }
  if (place.nurse === null) showHole(place.shift, place.day);
  else {
    if (!shownNurses().includes(place.nurse)) showAll();
    stand(place.nurse, place.day);
  }
  if (place.words) detail(place.words);
}

/** Goes to the next problem from today on, or to the one before. */
export async function nextProblem(step) {
  const ahead = places().filter((place) => !place.past);
  if (!ahead.length) {
    say('No problems from today on');
    return;
  }
  at = at < 0 && step < 0 ? ahead.length - 1 : (at + step + ahead.length) % ahead.length;
  await jump(ahead[at]);
  say(`Problem ${at + 1} of ${ahead.length}. ${ahead[at].words}`);
}
