
// Moving through the frames, and cells and curves under a finger.

function show() {
  const frame = frames[view.frame];
  drawMap();
  showChart();
  byId('clock').textContent = clockText(frame);
  byId('steps').textContent = `${grouped(frame.steps)} of ${grouped(frames[last].steps)}`;
  byId('total').textContent = `${grouped(frame.total)} mm`;
  // Read aloud when the reader moves, and not with every frame that plays.
  byId('cell').setAttribute('aria-live', view.timer === null ? 'polite' : 'off');
  byId('cell').textContent = cellText(view.hover || view.pinned);
  const slider = byId('slider');
  slider.value = view.frame;
  slider.setAttribute('aria-valuetext', clockText(frame));
  byId('back').disabled = view.frame === 0;
  byId('forward').disabled = view.frame === last;
}

function go(frame) {
  view.frame = clamp(frame, 0, last);
  show();
}

// By hand, the reader decides where to stand: what plays stops.
function goByHand(frame) {
  pause();
  go(frame);
}

function wait() {
  view.timer = setTimeout(tick, 1000 / Number(byId('speed').value));
}

function tick() {
  go(view.frame + 1);
  if (view.frame < last) wait();
  else pause();
}

function play() {
  if (last === 0) return;
  if (view.frame === last) go(0);
  wait();
  showPlaying();
}

function pause() {
  clearTimeout(view.timer);
  view.timer = null;
  showPlaying();
}

function showPlaying() {
  const playing = view.timer !== null;
  byId('play-word').textContent = playing ? 'Pause' : 'Play';
  byId('play-icon').setAttribute('d', playing ? 'M4 3h4v14H4zM12 3h4v14h-4z' : 'M5 3l12 7l-12 7z');
}

const playOrPause = () => (view.timer === null ? play() : pause());

const KEYS = {
  ' ': playOrPause,
  ArrowLeft: () => goByHand(view.frame - 1),
  ArrowRight: () => goByHand(view.frame + 1),
  Home: () => goByHand(0),
  End: () => goByHand(last),
};

// Fields and buttons keep the keys that they know themselves.
function keeps(target, key) {
  if (!(target instanceof Element)) return false;
  if (target.matches('select, input[type="number"]')) return true;
  return key === ' ' ? target.matches('button') : target.matches('input[type="range"]');
}

function onKey(event) {
  const act = KEYS[event.key];
  if (!act || event.altKey || event.ctrlKey || event.metaKey || keeps(event.target, event.key)) return;
  event.preventDefault();
  act();
}

function cellAt(event) {
  const box = map.canvas.getBoundingClientRect();
  const i = Math.floor((event.clientX - box.left - ROOM.left) / map.cell);
  const j = Math.floor((ROOM.top + map.high - (event.clientY - box.top)) / map.cell);
  return i >= 0 && i < w && j >= 0 && j < n ? [i, j] : null;
}

function pin(cell) {
  view.pinned = cell;
  view.hover = null;
  if (cell !== null) [byId('cell-i').value, byId('cell-j').value] = cell;
  show();
}

function hover(cell) {
  if (String(cell) === String(view.hover)) return;
  view.hover = cell;
  show();
}

function pinFields() {
  const [i, j] = ['cell-i', 'cell-j'].map((id) => byId(id).valueAsNumber);
  const inside = Number.isInteger(i) && Number.isInteger(j) && i >= 0 && i < w && j >= 0 && j < n;
  view.pinned = inside ? [i, j] : null;
  view.hover = null;
  show();
}

function frameAt(event) {
  const box = byId('chart').getBoundingClientRect();
  const steps = ((event.clientX - box.left - CHART.left) / chart.wide) * chart.end;
  const away = (k) => Math.abs(frames[k].steps - steps);
  return frames.reduce((best, _, k) => (away(k) < away(best) ? k : best), 0);
}

function listen() {
  byId('play').addEventListener('click', playOrPause);
  byId('back').addEventListener('click', () => goByHand(view.frame - 1));
  byId('forward').addEventListener('click', () => goByHand(view.frame + 1));
  byId('slider').addEventListener('input', (event) => goByHand(Number(event.target.value)));
  document.addEventListener('keydown', onKey);
  const canvas = byId('map');
  canvas.addEventListener('pointermove', (event) => event.pointerType === 'mouse' && hover(cellAt(event)));
  canvas.addEventListener('pointerleave', () => hover(null));
  canvas.addEventListener('click', (event) => pin(cellAt(event)));
  for (const id of ['cell-i', 'cell-j']) byId(id).addEventListener('input', pinFields);
  const curves = byId('chart');
  curves.addEventListener('click', (event) => goByHand(frameAt(event)));
  curves.addEventListener('pointermove', (event) => event.buttons === 1 && goByHand(frameAt(event)));
  byId('colours').addEventListener('change', lay);
  dark.addEventListener('change', lay);
  window.addEventListener('resize', onResize);
}

// The bars of a phone's browser come and go while the reader scrolls: a change
// of height that small moves nothing.
function onResize() {
  const { width, height } = view.window;
  if (window.innerWidth !== width || Math.abs(window.innerHeight - height) > 160) lay();
}

// All that depends on the size of the page or on its colours.
function lay() {
  view.window = { width: window.innerWidth, height: window.innerHeight };
  takeColours();
  layMap();
  showKey();
  layGates();
  layChart();
  show();
}

byId('about').textContent = aboutText();
byId('slider').max = last;
byId('slider').disabled = last === 0;
byId('play').disabled = last === 0;
byId('keys-frames').hidden = last === 0;
byId('keys-curves').hidden = last === 0 || gates.length === 0;
byId('cell-i').max = w - 1;
byId('cell-j').max = n - 1;
listen();
// It never plays by itself, for the sake of readers whom motion troubles.
lay();
