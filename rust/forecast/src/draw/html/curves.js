
// The curves of the gates over the frames.

const CHART = { left: 60, right: 14, top: 26, bottom: 42, height: 240 };
const gateLevel = (gate, frame) => frame.level[index(gate.i, gate.j)];

// Elements of the chart are of its own kind, which it names itself.
function put(parent, name, attributes, words) {
  const element = document.createElementNS(byId('chart').namespaceURI, name);
  Object.entries(attributes).forEach(([key, value]) => element.setAttribute(key, value));
  if (words !== undefined) element.textContent = words;
  parent.append(element);
  return element;
}

function layChart() {
  if (gates.length === 0) return;
  byId('gates').hidden = false;
  const svg = byId('chart');
  svg.replaceChildren();
  const wide = svg.clientWidth - CHART.left - CHART.right;
  const high = CHART.height - CHART.top - CHART.bottom;
  const ticks = levelTicks();
  const [low, high0] = [ticks[0], ticks[ticks.length - 1]];
  const end = Math.max(frames[last].steps, 1);
  chart = {
    x: (k) => CHART.left + (wide * frames[k].steps) / end,
    y: (level) => CHART.top + (high * (high0 - level)) / (high0 - low),
    end,
    wide,
  };
  drawAxes(svg, ticks, high);
  gates.forEach((gate, k) => drawCurve(svg, gate, k));
  chart.marker = put(svg, 'line', { class: 'marker', y1: CHART.top, y2: CHART.top + high });
  chart.marks = gates.map((_, k) => drawMark(svg, k));
}

// Round levels from below the lowest to above the highest of the curves.
function levelTicks() {
  const all = gates.flatMap((gate) => frames.map((frame) => gateLevel(gate, frame)));
  const ends = all.reduce(([a, b], level) => [Math.min(a, level), Math.max(b, level)], [all[0], all[0]]);
  const step = roundUp(Math.max((ends[1] - ends[0]) / 4, 1));
  const first = Math.floor(ends[0] / step) * step;
  const count = Math.max(Math.ceil((ends[1] - first) / step), 1);
  return Array.from({ length: count + 1 }, (_, k) => first + k * step);
}

function drawAxes(svg, ticks, high) {
  const [right, floor] = [CHART.left + chart.wide, CHART.top + high];
  put(svg, 'text', { x: 0, y: 12 }, 'level, mm');
  for (const level of ticks) {
    const y = chart.y(level).toFixed(2);
    put(svg, 'path', { class: 'grid', d: `M${CHART.left} ${y}H${right}` });
    const words = { class: 'tick', x: CHART.left - 8, y, dy: 4, 'text-anchor': 'end' };
    put(svg, 'text', { ...words, 'data-y': y, 'data-level': level }, grouped(level));
  }
  put(svg, 'path', { class: 'axis', d: `M${CHART.left} ${CHART.top}V${floor}H${right}` });
  const labels = frameLabels();
  for (const k of labelled(labels)) {
    const anchor = k === last && last > 0 ? 'end' : 'middle';
    put(svg, 'path', { class: 'axis', d: `M${chart.x(k).toFixed(2)} ${floor}v5` });
    put(svg, 'text', { x: chart.x(k), y: floor + 18, 'text-anchor': anchor }, labels[k]);
  }
  const axis = timed ? 'time, UTC' : 'steps';
  put(svg, 'text', { x: right, y: floor + 36, 'text-anchor': 'end' }, axis);
}

// Times without what is the same for all of them, or steps.
function frameLabels() {
  if (!timed) return frames.map((frame) => grouped(frame.steps));
  const parts = frames.map((frame) => frame.time.split(' '));
  const oneDay = parts.every(([day]) => day === parts[0][0]);
  const minutes = parts.every(([, time]) => time.endsWith(':00'));
  return parts.map(([day, time]) => {
    const short = minutes ? time.slice(0, 5) : time;
    return oneDay ? short : `${day.slice(-5)} ${short}`;
  });
}

// The frames whose labels have room: the first, the last and some between.
function labelled(labels) {
  const longest = Math.max(...labels.map((label) => label.length));
  const room = Math.max(Math.floor(chart.wide / (longest * 7.5 + 24)), 1);
  const apart = Math.max(Math.ceil(last / Math.min(room, 8)), 1);
  const even = frames.map((_, k) => k).filter((k) => k % apart === 0);
  const clear = (k) => k === 0 || chart.x(last) - chart.x(k) > longest * 11;
  return [...even.filter((k) => k !== last && clear(k)), last];
}

function drawCurve(svg, gate, k) {
  const at = (frame, place) => `${chart.x(place).toFixed(2)} ${chart.y(gateLevel(gate, frame)).toFixed(2)}`;
  const d = `M${frames.map(at).join('L')}`;
  const dashes = DASHES[k % DASHES.length];
  put(svg, 'path', { class: 'curve', d, stroke: gateColour(k), 'stroke-dasharray': dashes });
}

const drawMark = (svg, k) =>
  put(svg, 'path', { class: 'mark', d: MARKS[k % MARKS.length], fill: gateColour(k) });

function showChart() {
  if (!chart) return;
  const x = chart.x(view.frame).toFixed(2);
  chart.marker.setAttribute('x1', x);
  chart.marker.setAttribute('x2', x);
  gates.forEach((gate, k) => {
    const level = gateLevel(gate, frames[view.frame]);
    chart.marks[k].setAttribute('transform', `translate(${x} ${chart.y(level).toFixed(2)})`);
    byId('gate-list').children[k].querySelector('.value').textContent = `${grouped(level)} mm`;
  });
}

// Names are put in as text alone: they may hold anything.
function layGates() {
  byId('gate-list').replaceChildren(...gates.map((gate, k) => {
    const item = document.createElement('li');
    const swatch = put(item, 'svg', { width: 44, height: 16, viewBox: '-22 -8 44 16', 'aria-hidden': true });
    const stroked = { stroke: gateColour(k), 'stroke-dasharray': DASHES[k % DASHES.length] };
    put(swatch, 'path', { class: 'curve', d: 'M-22 0H22', ...stroked });
    drawMark(swatch, k);
    const words = [['name', gate.name], ['value', ''], ['place', `cell ${gate.i} ${gate.j}`]];
    for (const [kind, text] of words) {
      const part = document.createElement('span');
      part.className = kind;
      part.textContent = text;
      item.append(part);
    }
    return item;
  }));
}
