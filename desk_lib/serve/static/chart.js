// The penalty of a run against time, as steps, with the lower bound as a dashed line.
import {h} from './dom.js';

const WIDTH = 720, HEIGHT = 280, LEFT = 56, RIGHT = 16, TOP = 16, BOTTOM = 30;
const STEPS = [1, 2, 5, 10, 20, 50, 100, 200, 500, 1000, 2000, 5000, 10000, 20000, 50000, 100000];

const stepFor = (range, most) => STEPS.find((step) => range / step <= most) ?? STEPS.at(-1);

function ticks(first, last, step) {
  const found = [];
  for (let at = Math.ceil(first / step) * step; at <= last; at += step) found.push(at);
  return found;
}

/** The chart of a run at a time, in seconds. */
export function chart(run, now) {
  const {bound} = run, points = run.points, start = run.start ?? points[0]?.[1];
  if (start === null || start === undefined) return null;
  const best = run.best ?? start,
        values = [start, best, ...points.map(([, penalty]) => penalty), ...bound === null ? [] : [bound]];
  const lowest = Math.min(...values), highest = Math.max(...values), margin = (highest - lowest) * 0.08 || 10;
  const bottom = Math.max(0, lowest - margin), top = highest + margin, end = Math.max(1, now, run.seconds ?? 0);
  const x = (time) => LEFT + (time / end) * (WIDTH - LEFT - RIGHT),
        y = (penalty) => TOP + ((top - penalty) / (top - bottom)) * (HEIGHT - TOP - BOTTOM);
  const across = (type, at) => h('line', {class: type, x1: LEFT, x2: WIDTH - RIGHT, y1: y(at), y2: y(at)});
  const words = `Penalty against time: from ${start} to ${best} in ${Math.round(now)} seconds${
    bound === null ? '' : `; the lower bound is ${bound}`}`;
  return h('svg', {viewBox: `0 0 ${WIDTH} ${HEIGHT}`, role: 'img', class: 'chart', 'aria-label': words},
    ticks(bottom, top, stepFor(top - bottom, 6))
      .map((at) => [across('gridline', at), h('text', {class: 'tick at-end', x: LEFT - 8, y: y(at) + 4}, at)]),
    ticks(0, end, stepFor(end, 9)).map((at) => h('text', {class: 'tick centred', x: x(at), y: HEIGHT - 10}, `${at} s`)),
    bound !== null &&
      [across('bound', bound), h('text', {class: 'bound-text', x: WIDTH - RIGHT, y: y(bound) - 6}, `lower bound ${bound}`)],
    h('path', {class: 'curve', d: path(points, start, x, y, now)}),
    h('circle', {class: 'dot', cx: x(now), cy: y(best), r: 5}),
    h('text', {class: 'now', x: Math.min(x(now), WIDTH - RIGHT - 30), y: y(best) - 10}, best));
}

function path(points, start, x, y, now) {
  const steps = points.map(([time, penalty]) => `H${x(time).toFixed(1)}V${y(penalty).toFixed(1)}`);
  return `M${x(0).toFixed(1)} ${y(start).toFixed(1)}${steps.join('')}H${x(now).toFixed(1)}`;
}
