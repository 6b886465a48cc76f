// Where the planner stands in the month: a nurse and a day, and the other end of selected days of the same nurse.
import {isShown, month, nearToday, nurseRow, nurses} from './ward.js';

export const standing = {
  nurse: null,
  day: null,
  until: null
};

/** The first and the last of the selected days. */
export function selection() {
  const {day, until} = standing;
  return until === null ? [day, day] : [Math.min(day, until), Math.max(day, until)];
}

export const isSelected = (nurse, day) =>
  standing.until !== null && nurse === standing.nurse && day >= selection()[0] && day <= selection()[1];

export const isStanding = (nurse, day) => standing.nurse === nurse && standing.day === day;

/** Keeps the place inside of what is shown. */
export function settleIn() {
  if (!nurseRow(standing.nurse)) standing.nurse = nurses()[0];
  if (standing.day === null || !isShown(standing.day)) standing.day = isShown(nearToday()) ? nearToday() : month.window.first;
  if (standing.until !== null && !isShown(standing.until)) standing.until = null;
}
