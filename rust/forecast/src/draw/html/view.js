// `data` is what the tool wrote, `view` what the reader chose, and `show` draws
// the one by the other. Nothing here changes a number of `data`, and nothing is
// asked of any host.

const byId = (id) => document.getElementById(id);
const data = JSON.parse(byId('data').textContent);
const { w, n, frames, gates, scale } = data;
const last = frames.length - 1;
const timed = frames.every((frame) => frame.time !== null);
const view = { frame: 0, hover: null, pinned: null, timer: null, window: null };
// Colours as the style has them now, and where the map and the chart stand.
let ink = {};
let levels = [];
let map = {};
let chart = null;

// 6289500 as 6,289,500, in every language of the reader's device.
const grouped = (number) => String(number).replace(/\B(?=(\d{3})+$)/g, ',');
const index = (i, j) => (j % n) * w + (i % w);
const clamp = (number, least, most) => Math.min(Math.max(number, least), most);

function clockText(frame) {
  const steps = grouped(frame.steps);
  return frame.time === null ? `step ${steps}, from ${data.start} UTC` : `${frame.time} UTC`;
}

function aboutText() {
  const sides = ['no walls: the grid wraps', 'walls in the south and north', 'walls on all sides'];
  const length = data.step_ms === null ? '' : `, a step is ${grouped(data.step_ms)} ms`;
  return `From ${data.start} UTC: ${w} by ${n} cells, ${sides[data.kind]}${length}.`;
}

function cellText(cell) {
  if (cell === null) return 'Touch a cell of the map, or give its column and row.';
  const [i, j] = cell;
  const { level, u, v } = frames[view.frame];
  const k = index(i, j);
  const depth = level[k] - data.bottom[k];
  // A number stays in one line with its name and its unit.
  const told = (name, number, unit) => `${name}\u00a0${grouped(number)}\u00a0${unit}`;
  const numbers = [
    told('level', level[k], 'mm'),
    told('depth', depth, 'mm'),
    told('u', u[k], 'mm/s'),
    told('v', v[k], 'mm/s'),
  ];
  return `cell ${i} ${j}: ${numbers.join(', ')}`;
}

// Gates differ by colour, by dashes and by mark, as not every eye tells colours.
const GATE_COLOURS = 6;
const DASHES = ['', '8 4', '2 3', '10 3 2 3', '16 5'];
const MARKS = [
  'M-5 0a5 5 0 1 0 10 0a5 5 0 1 0-10 0z',
  'M-4.5-4.5H4.5V4.5H-4.5z',
  'M0-6L5.5 4.5H-5.5z',
  'M0-6.5L6 0L0 6.5L-6 0z',
  'M0 6L5.5-4.5H-5.5z',
  'M-6-2H-2V-6H2V-2H6V2H2V6H-2V2H-6z',
  'M-6 0L-2-2L0-6L2-2L6 0L2 2L0 6L-2 2z',
];

const dark = matchMedia('(prefers-color-scheme: dark)');

function scheme() {
  const chosen = byId('colours').value;
  if (chosen !== 'device') return chosen;
  return dark.matches ? 'dark' : 'light';
}

function takeColours() {
  document.documentElement.dataset.scheme = scheme();
  const style = getComputedStyle(document.documentElement);
  const names = ['page', 'ink', 'grey', 'line', 'contour', 'focus'];
  for (let k = 0; k < GATE_COLOURS; k += 1) names.push(`gate${k}`);
  ink = Object.fromEntries(names.map((name) => [name, style.getPropertyValue(`--${name}`).trim()]));
  const colours = scale[scheme()];
  levels = Array.from({ length: 513 }, (_, k) => mixed(colours, k / 512));
  byId('bar').style.background = `linear-gradient(to right, ${colours.join(', ')})`;
}

// The colour of a part of the scale, 0 to 1, between the two next to it.
function mixed(colours, part) {
  const place = part * (colours.length - 1);
  const below = Math.min(Math.floor(place), colours.length - 2);
  const channel = (colour, k) => parseInt(colour.slice(1 + 2 * k, 3 + 2 * k), 16);
  const mix = (k) => {
    const from = channel(colours[below], k);
    return Math.round(from + (channel(colours[below + 1], k) - from) * (place - below));
  };
  return `rgb(${mix(0)}, ${mix(1)}, ${mix(2)})`;
}

function levelColour(level) {
  const part = clamp((level - scale.middle) / scale.reach, -1, 1);
  return levels[Math.round((part + 1) * 256)];
}

const gateColour = (k) => ink[`gate${k % GATE_COLOURS}`];
