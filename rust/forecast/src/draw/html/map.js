
// The map: cells, bottom, current, walls and barriers, numbers, gates; and the
// words about what is drawn.

// Closed edges are drawn so thick, in points, and arrows so far apart.
const CLOSED = 3.5;
const ARROWS_APART = 17;
const NUMBERS_APART = 24;
const ROOM = { left: 28, right: 28, top: 8, bottom: 22 };

// The cells are as large as the page has room for, in whole points of the
// screen, so that no seams are seen between them.
function layMap() {
  const canvas = byId('map');
  const sharp = window.devicePixelRatio || 1;
  const wide = canvas.parentElement.clientWidth - ROOM.left - ROOM.right;
  const high = Math.max(260, 0.62 * window.innerHeight);
  const most = Math.min(wide / w, high / n, 72);
  const cell = Math.max(Math.floor(most * sharp), 1) / sharp;
  const width = w * cell + ROOM.left + ROOM.right;
  // A single row is lower than the north arrow.
  const height = Math.max(n * cell + ROOM.top + ROOM.bottom, 44);
  canvas.width = Math.ceil(width * sharp);
  canvas.height = Math.ceil(height * sharp);
  canvas.style.width = `${width}px`;
  canvas.style.height = `${height}px`;
  const apart = Math.max(Math.ceil(ARROWS_APART / cell), 1);
  const longest = Math.min(1.15 * apart * cell, 34);
  map = { canvas, sharp, cell, width, height, apart, longest, wide: w * cell, high: n * cell };
}

const mapX = (i) => ROOM.left + i * map.cell;
const mapY = (j) => ROOM.top + map.high - j * map.cell;

function drawMap() {
  const draw = map.canvas.getContext('2d');
  draw.setTransform(map.sharp, 0, 0, map.sharp, 0, 0);
  draw.clearRect(0, 0, map.width, map.height);
  drawCells(draw);
  drawContours(draw);
  drawArrows(draw);
  drawSides(draw);
  drawBarriers(draw);
  drawNumbers(draw);
  drawNorth(draw);
  drawChosen(draw);
  drawGates(draw);
  const frame = frames[view.frame];
  const total = `total depth ${grouped(frame.total)} mm`;
  map.canvas.setAttribute('aria-label', `Map of level and current, ${clockText(frame)}, ${total}`);
}

function drawCells(draw) {
  frames[view.frame].level.forEach((level, k) => {
    draw.fillStyle = levelColour(level);
    draw.fillRect(mapX(k % w), mapY(Math.floor(k / w) + 1), map.cell, map.cell);
  });
}

function stroke(draw, colour, width, dashes, path) {
  draw.strokeStyle = colour;
  draw.lineWidth = width;
  draw.setLineDash(dashes);
  draw.beginPath();
  path();
  draw.stroke();
  draw.setLineDash([]);
}

function line(draw, x0, y0, x1, y1) {
  draw.moveTo(x0, y0);
  draw.lineTo(x1, y1);
}

// Where a multiple of the interval lies between the bottoms of two cells.
function drawContours(draw) {
  if (scale.contour === 0) return;
  const band = (i, j) => Math.trunc(data.bottom[index(i, j)] / scale.contour);
  stroke(draw, ink.contour, 1, [], () => {
    data.bottom.forEach((_, k) => {
      const [i, j] = [k % w, Math.floor(k / w)];
      const [east, north] = [mapX(i + 1), mapY(j + 1)];
      if (i + 1 < w && band(i, j) !== band(i + 1, j)) line(draw, east, north, east, mapY(j));
      if (j + 1 < n && band(i, j) !== band(i, j + 1)) line(draw, mapX(i), north, east, north);
    });
  });
}

// Current at the centre of a cell: the mean over its two edges.
function current(frame, i, j) {
  const east = (frame.u[index(i, j)] + frame.u[index(i + 1, j)]) / 2;
  const north = (frame.v[index(i, j)] + frame.v[index(i, j + 1)]) / 2;
  return [east, north];
}

// The first of the places that are so far apart, with as much left over before
// as after them.
function firstPlace(count, apart) {
  const taken = Math.max(Math.floor(count / apart) - 1, 0) * apart;
  return Math.floor(Math.max(count - 1 - taken, 0) / 2);
}

function drawArrows(draw) {
  const frame = frames[view.frame];
  const perSpeed = map.longest / Math.max(scale.fastest, 1);
  draw.lineCap = 'round';
  draw.lineJoin = 'round';
  stroke(draw, ink.ink, 1.2, [], () => {
    for (let j = firstPlace(n, map.apart); j < n; j += map.apart) {
      for (let i = firstPlace(w, map.apart); i < w; i += map.apart) {
        const [east, north] = current(frame, i, j);
        const points = arrowPoints(east * perSpeed, -north * perSpeed);
        if (points) arrowPath(draw, insideMap(points, mapX(i + 0.5), mapY(j + 0.5)));
      }
    }
  });
  draw.lineCap = 'butt';
}

// Tail, tip and the two sides of the head, seen from the middle of the shaft.
// Hardly any current has none.
function arrowPoints(east, down) {
  const length = Math.hypot(east, down);
  if (length < 2.2) return null;
  const head = clamp(0.34 * length, 1.3, 5) / length;
  const side = (turn) => [
    east / 2 - head * (east + turn * down),
    down / 2 - head * (down - turn * east),
  ];
  return [[-east / 2, -down / 2], [east / 2, down / 2], side(0.6), side(-0.6)];
}

// An arrow that would leave the map is moved in, and made shorter where the map
// is too small for it.
function insideMap(points, x, y) {
  const clear = Math.min(2.5, map.wide / 4, map.high / 4);
  const span = (k) => [0, 1].map((end) => (end ? Math.max : Math.min)(...points.map((p) => p[k])));
  const [across, upright] = [span(0), span(1)];
  const fits = (room, [least, most]) => (room - 2 * clear) / Math.max(most - least, 0.001);
  const part = Math.min(fits(map.wide, across), fits(map.high, upright), 1);
  const place = (at, from, room, [least, most]) =>
    clamp(at, from + clear - part * least, from + room - clear - part * most);
  const [left, top] = [place(x, ROOM.left, map.wide, across), place(y, ROOM.top, map.high, upright)];
  return points.map(([east, down]) => [left + part * east, top + part * down]);
}

function arrowPath(draw, [tail, tip, left, right]) {
  line(draw, ...tail, ...tip);
  line(draw, ...left, ...tip);
  draw.lineTo(...right);
}

// Thick where the boundary closes edges, broken where the grid wraps.
function drawSides(draw) {
  const [west, east, south, north] = [mapX(0), mapX(w), mapY(0), mapY(n)];
  const level = () => {
    line(draw, west, south, east, south);
    line(draw, west, north, east, north);
  };
  const upright = () => {
    line(draw, west, south, west, north);
    line(draw, east, south, east, north);
  };
  for (const [path, closed] of [[upright, data.kind === 2], [level, data.kind >= 1]]) {
    draw.lineCap = closed ? 'square' : 'butt';
    if (closed) stroke(draw, ink.ink, CLOSED, [], path);
    else stroke(draw, ink.line, 1, [3, 3], path);
  }
}

// An edge on a side of the grid stands on the opposite side too.
function drawBarriers(draw) {
  const places = (first, count) => (first === 0 ? [0, count] : [first]);
  draw.lineCap = 'square';
  stroke(draw, ink.ink, CLOSED, [], () => {
    data.barriers.forEach((barrier, k) => {
      const [i, j] = [k % w, Math.floor(k / w)];
      const west = barrier & 1 ? places(i, w) : [];
      const south = barrier & 2 ? places(j, n) : [];
      west.forEach((at) => line(draw, mapX(at), mapY(j), mapX(at), mapY(j + 1)));
      south.forEach((at) => line(draw, mapX(i), mapY(at), mapX(i + 1), mapY(at)));
    });
  });
  draw.lineCap = 'butt';
}

// 1, 2, 5, 10, 20 … : the least that is not below a number.
function roundUp(number) {
  const ten = 10 ** Math.max(Math.floor(Math.log10(Math.max(number, 1))), 0);
  return [1, 2, 5, 10].map((step) => step * ten).find((step) => step >= number);
}

// As many numbers of columns and rows as do not touch.
function drawNumbers(draw) {
  const apart = roundUp(Math.ceil(NUMBERS_APART / map.cell));
  draw.fillStyle = ink.grey;
  draw.font = '12px system-ui, sans-serif';
  draw.textAlign = 'center';
  for (let i = 0; i < w; i += apart) draw.fillText(i, mapX(i + 0.5), mapY(0) + 17);
  draw.textAlign = 'right';
  for (let j = 0; j < n; j += apart) draw.fillText(j, ROOM.left - 7, mapY(j + 0.5) + 4);
}

function drawNorth(draw) {
  const x = map.width - 12;
  draw.fillStyle = ink.ink;
  draw.beginPath();
  draw.moveTo(x, ROOM.top);
  draw.lineTo(x + 6, ROOM.top + 18);
  draw.lineTo(x, ROOM.top + 13);
  draw.lineTo(x - 6, ROOM.top + 18);
  draw.fill();
  draw.font = 'bold 13px system-ui, sans-serif';
  draw.textAlign = 'center';
  draw.fillText('N', x, ROOM.top + 32);
}

function drawChosen(draw) {
  const cell = view.hover || view.pinned;
  if (cell === null) return;
  draw.strokeStyle = ink.focus;
  draw.lineWidth = 2.5;
  draw.strokeRect(mapX(cell[0]), mapY(cell[1] + 1), map.cell, map.cell);
}

function drawGates(draw) {
  const middle = (gate) => [mapX(gate.i + 0.5), mapY(gate.j + 0.5)];
  const taken = gates.map(middle).map(([x, y]) => ({ x: x - 5, y, wide: 10 }));
  const longest = map.wide < 500 ? 12 : 24;
  draw.font = 'bold 12px system-ui, sans-serif';
  draw.textAlign = 'left';
  draw.lineJoin = 'round';
  gates.forEach((gate, k) => {
    const [x, y] = middle(gate);
    draw.translate(x, y);
    outlined(draw, gateColour(k), new Path2D(MARKS[k % MARKS.length]));
    draw.translate(-x, -y);
    const letters = [...gate.name];
    const words = letters.length > longest ? `${letters.slice(0, longest - 1).join('')}…` : gate.name;
    const place = labelPlace(x, y, draw.measureText(words).width, taken);
    taken.push(place);
    draw.strokeStyle = ink.page;
    draw.lineWidth = 4;
    draw.strokeText(words, place.x, place.y + 4);
    draw.fillStyle = ink.ink;
    draw.fillText(words, place.x, place.y + 4);
  });
}

function outlined(draw, colour, path) {
  draw.strokeStyle = ink.page;
  draw.lineWidth = 3;
  draw.stroke(path);
  draw.fillStyle = colour;
  draw.fill(path);
}

// Beside a gate, or above or below it, where no other name stands. Where none
// is free, the first place has to do.
function labelPlace(x, y, wide, taken) {
  const about = [-17, 17, -33, 33].map((down) => [x - wide / 2, y + down]);
  const tries = [[x + 10, y], [x - 10 - wide, y], ...about];
  const places = tries.map(([left, middle]) => ({
    x: clamp(left, ROOM.left + 4, Math.max(ROOM.left + map.wide - wide - 4, 2)),
    y: clamp(middle, ROOM.top + 10, ROOM.top + map.high - 10),
    wide,
  }));
  const apart = (a, b) =>
    Math.abs(a.y - b.y) > 14 || a.x > b.x + b.wide + 3 || b.x > a.x + a.wide + 3;
  return places.find((place) => taken.every((other) => apart(place, other))) || places[0];
}

function showKey() {
  byId('low').textContent = grouped(scale.middle - scale.reach);
  byId('middle').textContent = grouped(scale.middle);
  byId('high').textContent = grouped(scale.middle + scale.reach);
  const length = (map.longest * scale.key) / Math.max(scale.fastest, 1);
  const points = arrowPoints(length, 0);
  byId('key-current').hidden = scale.key === 0 || !points;
  if (points) {
    const at = ([x, y]) => `${(x + length / 2 + 2).toFixed(1)} ${(y + 7).toFixed(1)}`;
    byId('key-arrow').setAttribute('width', Math.ceil(length + 4));
    const [tail, tip, left, right] = points.map(at);
    byId('key-arrow-path').setAttribute('d', `M${tail}L${tip}M${left}L${tip}L${right}`);
  }
  byId('key-speed').textContent = `current, ${grouped(scale.key)} mm/s`;
  byId('key-contour').hidden = scale.contour === 0;
  byId('key-interval').textContent = `bottom, every ${grouped(scale.contour)} mm`;
  byId('key-wrap').hidden = data.kind === 2;
  byId('key-wall').hidden = data.kind === 0 && data.barriers.every((barrier) => barrier === 0);
}
