// Acts as a reader of the page, and leaves what was seen as JSON in the page.
(async () => {
  const byId = (id) => document.getElementById(id);
  const wait = (ms) => new Promise((done) => { setTimeout(done, ms); });
  const all = (where) => [...document.querySelectorAll(where)];
  const now = () => ({
    frame: Number(byId('slider').value),
    clock: byId('clock').textContent,
    steps: byId('steps').textContent,
    total: byId('total').textContent,
    cell: byId('cell').textContent,
    word: byId('play-word').textContent,
    gates: all('#gate-list .value').map((value) => value.textContent),
    marker: (document.querySelector('#chart .marker') || byId('chart')).getAttribute('x1') || '',
  });
  const slide = (k) => {
    byId('slider').value = k;
    byId('slider').dispatchEvent(new Event('input', { bubbles: true }));
    return now();
  };
  const key = (name, target = document.body) => {
    target.dispatchEvent(new KeyboardEvent('keydown', { key: name, bubbles: true, cancelable: true }));
    return now();
  };
  const click = (id, x, y) => {
    const box = byId(id).getBoundingClientRect();
    const at = { clientX: box.left + x, clientY: box.top + y, bubbles: true };
    byId(id).dispatchEvent(new MouseEvent('click', at));
    return now();
  };
  const pixel = (x, y) => {
    const sharp = window.devicePixelRatio;
    const spot = byId('map').getContext('2d').getImageData(x * sharp, y * sharp, 1, 1);
    return [...spot.data];
  };
  const tooSmall = () => all('button, select, input')
    .filter((one) => one.getBoundingClientRect().height < 40)
    .map((one) => one.id);

  const seen = { start: now() };
  const last = Number(byId('slider').max);

  // Played, and paused again: it moves, and it holds.
  byId('play').click();
  await wait(700);
  seen.playing = now();
  byId('play').click();
  seen.paused = now();
  await wait(1500);
  seen.held = now();

  seen.each = Array.from({ length: last + 1 }, (_, k) => slide(k));

  // A field keeps its keys, and a button the space bar, which presses it.
  seen.keys = ['Home', 'ArrowRight', 'ArrowRight', 'ArrowLeft', 'End', 'ArrowRight'].map((name) => key(name).frame);
  seen.kept = [key('Home', byId('speed')).frame, key('Home', byId('cell-i')).frame];
  seen.space = [key(' ').word, key(' ').word, key(' ', byId('play')).word];
  byId('speed').value = '25';
  key(' ');
  await wait(3000);
  seen.end = now();
  byId('back').click();
  seen.back = now().frame;
  byId('forward').click();
  seen.forward = now().frame;

  // The numbers of a cell, by its place on the map and by its column and row.
  slide(0);
  const cell = (byId('map').clientWidth - 56) / COLUMNS;
  const high = cell * ROWS;
  seen.mapHigh = Math.round(byId('map').clientHeight - high);
  seen.touched = click('map', 28 + 3.5 * cell, 8 + high - 2.5 * cell).cell;
  seen.outside = click('map', 2, 2).cell;
  byId('cell-i').value = 7;
  byId('cell-j').value = 1;
  byId('cell-j').dispatchEvent(new Event('input', { bubbles: true }));
  seen.given = now().cell;
  seen.west = pixel(28 + 0.5 * cell, 8 + 1.15 * cell);
  seen.east = pixel(28 + (COLUMNS - 0.5) * cell, 8 + 1.15 * cell);

  // The curves, and a click on each frame of them.
  seen.curves = all('#chart .curve').map((curve) => curve.getAttribute('d'));
  seen.ticks = all('#chart .tick').map((tick) => [tick.dataset.level, tick.dataset.y]);
  seen.names = all('#gate-list .name').map((name) => name.textContent);
  const places = seen.curves.length === 0 ? [] : seen.curves[0].slice(1).split('L');
  seen.clicked = places.map((place) => click('chart', Number(place.split(' ')[0]), 50).frame);

  seen.chartHidden = byId('gates').hidden;
  seen.inner = window.innerWidth;
  seen.wide = document.documentElement.scrollWidth;
  seen.tooSmall = tooSmall();
  const ground = () => getComputedStyle(document.body).backgroundColor;
  seen.ground = ground();
  seen.grounds = ['light', 'dark', 'device'].map((choice) => {
    byId('colours').value = choice;
    byId('colours').dispatchEvent(new Event('change'));
    return ground();
  });
  seen.asked = performance.getEntriesByType('resource').map((entry) => entry.name);
  seen.troubles = window.troubles;
  const pre = document.createElement('pre');
  pre.id = 'seen';
  pre.textContent = JSON.stringify(seen);
  document.body.append(pre);
  // A page in a frame cannot be read from outside: it has to tell.
  if (window.parent !== window) window.parent.postMessage(pre.textContent, '*');
})();
