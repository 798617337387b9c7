// The page: its window on the run, what is chosen in it, and what is told of that.
'use strict';

const view = (() => {
  const data = JSON.parse(document.getElementById('data').textContent);
  const model = new Model(data, document.getElementById('journal').textContent);
  const element = id => document.getElementById(id);
  const lanes = element('lanes'), canvas = element('canvas'), overview = element('overview'), lines = element('lines');
  const {tracks, height} = tracksOf(model);
  const state = {model, tracks, top: 0, width: 0, height: 0, x: null, event: 0, place: null, found: [], foundSlots: [],
    trackOf: place => trackHolding(place)};
  let base, asked = false, transform = d3.zoomIdentity;

  // d3 tells of an event by a global up to version 5, and by an argument from 6 on.
  const eventOf = given => (given && given.type ? given : d3.event);
  const zoom = d3.zoom()
    .filter(given => { const event = eventOf(given); return event.type === 'wheel' ? event.ctrlKey || event.metaKey || event.altKey : !event.button; })
    .wheelDelta(given => -eventOf(given).deltaY * 0.004)
    .on('zoom', given => { transform = eventOf(given).transform; ask(); });
  const shown = d3.select(canvas);

  function sized(surface, width, tall) {
    const scale = window.devicePixelRatio || 1;
    surface.width = Math.round(width * scale);
    surface.height = Math.round(tall * scale);
    surface.style.width = `${width}px`;
    surface.style.height = `${tall}px`;
    surface.getContext('2d').setTransform(scale, 0, 0, scale, 0, 0);
  }

  function resize() {
    const whole = lanes.clientWidth;
    state.width = Math.max(whole - GUTTER, 100);
    state.height = lanes.clientHeight;
    sized(canvas, whole, state.height);
    sized(overview, whole, 34);
    sized(lines, whole, 54);
    element('axis').setAttribute('width', whole);
    base = d3.scaleLinear().domain([0, model.slots]).range([0, state.width]);
    const most = Math.max(1, 400 * model.slots / state.width);
    zoom.scaleExtent([1, most]).extent([[GUTTER, 0], [GUTTER + state.width, state.height]])
      .translateExtent([[GUTTER, 0], [GUTTER + state.width, state.height]]);
    shown.call(zoom);
    ask();
  }

  function ask() {
    if (asked) return;
    asked = true;
    requestAnimationFrame(() => { asked = false; draw(() => {}); });
  }

  // Draws all; each span that is drawn in the lanes is told to `drew`.
  function draw(drew) {
    // the canvas begins with the gutter, and so does the transform
    const from = (0 - transform.x + GUTTER - GUTTER * transform.k) / transform.k;
    const [left, right] = [from / state.width, (from + state.width / transform.k) / state.width].map(part => part * model.slots);
    state.x = base.copy().domain([left, right + (right - left === 0 ? 1 : 0)]);
    state.top = lanes.scrollTop;
    drawLanes(canvas.getContext('2d'), state, drew);
    drawLines(lines.getContext('2d'), state, drew);
    drawAxis();
    drawOverview();
  }

  function drawAxis() {
    const slots = state.x.ticks(Math.max(Math.floor(state.width / 90), 1));
    const events = [...new Set(slots.map(slot => Math.min(Math.max(model.eventOfSlot(slot), 0), model.eventSlot.length - 1)))];
    const [from, to] = state.x.domain();
    const inside = events.map(event => model.eventSlot[event]).filter(slot => slot >= from && slot <= to);
    const axis = d3.axisTop(state.x).tickValues(inside).tickSizeOuter(0).tickFormat(slot => model.eventOfSlot(slot));
    d3.select('#axis g').attr('transform', `translate(${GUTTER},22)`).call(axis);
  }

  // The whole run in a strip: how many labels there are, what was found, and the window.
  function drawOverview() {
    const context = overview.getContext('2d'), {width} = state;
    context.clearRect(0, 0, width + GUTTER, 34);
    context.font = TEXT;
    context.textBaseline = 'middle';
    context.fillStyle = COLOURS.black;
    context.fillText('the whole run', 8, 17);
    context.save();
    context.translate(GUTTER, 0);
    context.fillStyle = '#888888';
    density().forEach((part, pixel) => context.fillRect(pixel, 30 - 24 * part, 1, 24 * part));
    context.fillStyle = COLOURS.red;
    let last = -1;
    for (const slot of state.foundSlots) {
      const pixel = Math.floor(base(slot));
      if (pixel !== last) context.fillRect(pixel, 0, 1.5, 6);
      last = pixel;
    }
    context.strokeStyle = COLOURS.blue;
    context.lineWidth = 2;
    const [from, to] = state.x.domain().map(base);
    context.fillStyle = '#0072B222';
    context.fillRect(from, 2, Math.max(to - from, 2), 30);
    context.strokeRect(from, 2, Math.max(to - from, 2), 30);
    context.restore();
  }

  let counted = null;
  function density() {
    if (counted && counted.width === state.width) return counted.parts;
    const parts = new Array(Math.floor(state.width)).fill(0);
    for (const place of model.labelAt) parts[Math.min(Math.floor(base(model.slotOf[place])), parts.length - 1)] += 1;
    const most = Math.max(1, ...parts);
    counted = {width: state.width, parts: parts.map(part => part / most)};
    return counted.parts;
  }

  // Sets the window to these slots.
  function setWindow(from, to) {
    const least = state.width / zoom.scaleExtent()[1] / state.width * model.slots;
    const length = Math.min(Math.max(to - from, least), model.slots);
    const begin = Math.min(Math.max(from, 0), model.slots - length), k = model.slots / length;
    zoom.transform(shown, d3.zoomIdentity.translate(GUTTER - (GUTTER + base(begin)) * k, 0).scale(k));
  }

  function reveal(from, to) {
    const [left, right] = state.x ? state.x.domain() : [0, model.slots];
    if (from >= left && to <= right) return ask();
    const length = Math.max(right - left, 1);
    setWindow((from + to - length) / 2, (from + to + length) / 2);
  }

  // The track that a note's label, bar or entry is on.
  function trackHolding(place) {
    const letter = model.notes[place][0], slot = model.slotOf[place];
    if (letter === 'e') return null;
    const label = model.labelOf(place);
    if (label >= 0 && model.data.labels[label][1] != null) return tracks.find(track => holdsLabel(track, slot, label));
    const words = model.notes[place].split(' ');
    if ('tgl'.includes(letter)) {
      const bars = (model.bars.get(+words[1]) || new Map()).get(pageKey(+words[2], +words[3]));
      return tracks.find(track => track.spans === bars);
    }
    if ('rosj'.includes(letter)) {
      const block = model.blocks.get(words.slice(1, 4).join(' '));
      return block && tracks.find(track => track.spans === block.spans);
    }
    const command = model.commands[+words[1]];
    return tracks.find(track => track.paint === paintCommand && track.spans.includes(command));
  }

  function holdsLabel(track, slot, label) {
    const span = track.paint === paintLabel && track.spans[firstBehind(track.spans, slot)];
    return span && span.label === label;
  }

  function choose(event, place) {
    state.event = Math.min(Math.max(event, 0), model.eventAt.length - 1);
    state.place = place;
    tell();
    if (place === null) reveal(model.eventSlot[state.event], Math.min(model.eventEnd(state.event), model.eventSlot[state.event] + 1));
    else {
      const track = trackHolding(place);
      if (track && (track.y < lanes.scrollTop || track.y + track.h > lanes.scrollTop + state.height)) lanes.scrollTop = track.y - state.height / 2;
      reveal(model.slotOf[place], model.slotOf[place] + 1);
    }
  }

  const chooseNote = place => choose(model.eventOf(place), place);

  // ---- what is told of what is chosen

  function line(parent, ...parts) {
    const made = parent.appendChild(document.createElement('p'));
    made.append(...parts.filter(part => part !== ''));
    return made;
  }

  function goTo(place, words) {
    const button = document.createElement('button');
    button.type = 'button';
    button.textContent = words;
    button.addEventListener('click', () => chooseNote(place));
    return button;
  }

  function tell() {
    const detail = element('detail'), {event, place} = state, {number, text, words} = model.lineOf(event);
    detail.replaceChildren();
    const head = detail.appendChild(document.createElement('h2'));
    head.textContent = `event ${event}: ${words}`;
    line(detail, `line ${number} of the schedule` + (text === words ? '' : `, ${text}`));
    const label = place === null ? -1 : model.labelOf(place);
    if (place !== null) {
      const chosen = line(detail, noteWords(model, place));
      chosen.className = 'chosen';
      chosen.id = 'chosen';
    }
    if (label >= 0) tellLabel(detail, model.label(label), place);
    else if (place !== null && 'tgl'.includes(model.notes[place][0])) {
      const numbers = model.notes[place].split(' ').map(Number);
      tellHolders(detail, pageKey(numbers[2], numbers[3]), place);
    }
    const notes = model.notesOf(event);
    line(detail, notes.length ? `What was noted in this event, in order:` : 'Nothing was noted in this event.');
    const list = detail.appendChild(document.createElement('ol'));
    for (const note of notes.slice(0, 500)) {
      const item = list.appendChild(document.createElement('li'));
      item.append(goTo(note, noteWords(model, note)));
      if (note === place) item.className = 'chosen';
    }
    if (notes.length > 500) line(detail, `and ${notes.length - 500} more`);
  }

  function tellLabel(detail, label, place) {
    if (label.kind === 'drain') {
      line(detail, 'The store was executed in ', labelButton(label.store), '; it waited in the queue until here, and all threads see it from here on.');
    }
    if (label.kind === 'store' && label.stored !== null) {
      const bar = model.queues[label.thread].flat().find(bar => bar.label === label.index);
      line(detail, ...(bar.drain === null ? ['It waits in the queue to the end of the run: no other thread sees it.']
        : ['It waits in the queue until ', labelButton(bar.drain), '; before that no other thread sees it.']));
    }
    if (label.source) tellSources(detail, label);
    const key = model.pageOf(label);
    if (key !== null) tellHolders(detail, key, place);
    if (label.pc != null) {
      const registers = model.registersBefore(label).map(([register, value]) => `x${register} = ${hex(value, 8)}`);
      line(detail, `Registers of thread ${label.thread} before it: ${registers.join(', ') || 'all are 0'}.`);
    }
  }

  const labelButton = index => goTo(model.labelAt[index], `event ${model.eventOf(model.labelAt[index])}: ${labelWords(model.label(index))}`);

  // The bytes from the lowest on, those of one source together.
  function tellSources(detail, label) {
    let from = 0;
    for (const [writer, waits, count] of label.source) {
      const bytes = count === label.size ? 'It' : `Of byte ${from}${count > 1 ? ` to ${from + count - 1}` : ''} it`;
      from += count;
      if (writer === null) line(detail, `${bytes} saw the 0 of the start: no store to it had taken effect.`);
      else if (model.data.labels[writer][0] === 'command') line(detail, `${bytes} saw the 0 that came with `, labelButton(writer), '.');
      else line(detail, `${bytes} saw the store of `, labelButton(writer), waits ? ', which waited in its own queue.' : ', which had taken effect.');
    }
    const key = model.pageOf(label), thread = label.thread;
    const others = model.queues.flatMap((rows, number) => (number === thread ? [] : rows.flat()))
      .filter(bar => bar.begin < model.slotOf[model.labelAt[label.index]] && model.slotOf[model.labelAt[label.index]] < bar.end)
      .map(bar => model.label(bar.label)).filter(other => model.pageOf(other) === key && other.address < label.address + label.size && label.address < other.address + other.size);
    for (const other of others) line(detail, 'It did not see the store of ', labelButton(other.index), `, which waited in the queue of thread ${other.thread}.`);
  }

  function tellHolders(detail, key, place) {
    const held = model.holders(key, place).map(({blade, way}) => `blade ${blade} to ${way === 'w' ? 'write' : 'read'}`);
    const told = line(detail, `${pageWords(key)} is held now by ${held.join(' and ') || 'no blade'}.`);
    told.id = 'holders';
    told.textContent = told.textContent[0].toUpperCase() + told.textContent.slice(1);
  }

  // ---- search

  function pageAsked(words) {
    if (!words.trim()) return null;
    const match = /^\s*(?:(\d+)\s*:\s*)?(0x[0-9a-f]+|\d+)\s*$/i.exec(words);
    return match ? {domain: match[1] === undefined ? null : +match[1], number: +match[2]} : {domain: null, number: -1};
  }

  function search() {
    const given = id => element(id).value;
    const wanted = {page: pageAsked(given('page')), thread: given('thread') === '' ? null : +given('thread'), kind: given('kind') || null};
    state.found = found(model, wanted);
    state.foundSlots = state.found.map(place => model.slotOf[place]);
    const asks = Object.values(wanted).some(value => value !== null);
    element('number').textContent = asks ? `${state.found.length} found` : '';
    ask();
  }

  function step(way) {
    if (!state.found.length) return;
    const here = state.place === null ? model.eventAt[state.event] : state.place;
    let index = firstAtLeast(state.found, here);
    if (way > 0) index = state.found[index] === here ? index + 1 : index;
    else index -= 1;
    index = (index + state.found.length) % state.found.length;
    element('number').textContent = `${index + 1} of ${state.found.length} found`;
    chooseNote(state.found[index]);
  }

  function nextNote(way) {
    let place = state.place === null ? model.eventAt[state.event] : state.place;
    do place += way; while (place >= 0 && place < model.notes.length && model.notes[place][0] === 'e');
    if (place >= 0 && place < model.notes.length) chooseNote(place);
  }

  function scaled(factor) {
    const [from, to] = state.x.domain(), middle = model.eventSlot[state.event] + 0.5;
    const held = middle >= from && middle <= to ? middle : (from + to) / 2;
    setWindow(held - (held - from) / factor, held + (to - held) / factor);
  }

  const KEYS = {
    ArrowRight: event => (event.shiftKey ? nextNote(1) : choose(state.event + 1, null)),
    ArrowLeft: event => (event.shiftKey ? nextNote(-1) : choose(state.event - 1, null)),
    PageDown: () => choose(state.event + 10, null), PageUp: () => choose(state.event - 10, null),
    Home: () => choose(0, null), End: () => choose(model.eventAt.length - 1, null),
    ArrowDown: () => { lanes.scrollTop += 40; }, ArrowUp: () => { lanes.scrollTop -= 40; },
    '+': () => scaled(1.5), '=': () => scaled(1.5), '-': () => scaled(1 / 1.5), 0: () => setWindow(0, model.slots),
    n: () => step(1), p: () => step(-1), N: () => step(-1), '/': () => element('page').focus(),
  };

  function spanAt(event) {
    const bounds = canvas.getBoundingClientRect(), x = event.clientX - bounds.left - GUTTER, y = event.clientY - bounds.top + lanes.scrollTop;
    const slot = state.x.invert(x);
    if (x < 0) return {slot: null};
    for (const track of tracks) {
      if (!track.paint || y < track.y || y > track.y + track.h) continue;
      const span = track.spans[firstBehind(track.spans, slot)];
      if (span && state.x(span.begin) - 2 <= x) return {slot, span};
    }
    return {slot, span: null};
  }

  // The note that a click on a span means: of a bar that at which it begins, or the Down or Give nearer to the click.
  function placeOf(span, slot) {
    if (span.kind === 'label' || span.place !== undefined) return span.place;
    if (span.kind === 'waiting') return model.labelAt[span.label];
    if (span.outcome !== undefined) return span.note === undefined ? model.eventAt[span.event] : span.note;
    if (span.ended === 'give' && slot >= span.end - 1) return span.until;
    return span.down !== null && slot >= span.down && slot < span.down + 1 ? span.lowered : span.since;
  }

  function clicked(event) {
    const {slot, span} = spanAt(event);
    if (slot === null) return;
    if (span) {
      const place = placeOf(span, slot);
      return model.notes[place][0] === 'e' ? choose(model.eventOf(place), null) : chooseNote(place);
    }
    choose(model.eventOfSlot(slot), null);
  }

  function pointed(event) {
    const {slot, span} = spanAt(event);
    canvas.style.cursor = span ? 'pointer' : 'grab';
    canvas.title = slot !== null && span ? noteWords(model, placeOf(span, slot)) : '';
  }

  function dragOverview(event) {
    if (!(event.buttons & 1)) return;
    const middle = base.invert(event.clientX - overview.getBoundingClientRect().left - GUTTER), [from, to] = state.x.domain();
    setWindow(middle - (to - from) / 2, middle + (to - from) / 2);
  }

  function wheel(event) {
    if (event.ctrlKey || event.metaKey || event.altKey) return;
    const along = event.shiftKey ? event.deltaY || event.deltaX : event.deltaX;
    if (!along && height > state.height) return;
    event.preventDefault();
    const [from, to] = state.x.domain(), by = (along || event.deltaY) * (to - from) / state.width;
    setWindow(from + by, to + by);
  }

  function fill(id, words) {
    for (const word of words) element(id).append(new Option(word, word));
  }

  function start() {
    element('space').style.height = `${height}px`;
    fill('thread', data.threads.map((_, thread) => thread));
    fill('kind', KINDS);
    const mine = model.counts(), differ = Object.keys(mine).filter(name => mine[name] !== data.counts[name]);
    element('agree').textContent = differ.length ? `The journal and the report differ in: ${differ.join(', ')}.` : '';
    element('page').addEventListener('input', search);
    for (const id of ['thread', 'kind']) element(id).addEventListener('change', search);
    element('search').addEventListener('submit', event => { event.preventDefault(); step(1); });
    element('previous').addEventListener('click', () => step(-1));
    element('closer').addEventListener('click', () => scaled(1.5));
    element('wider').addEventListener('click', () => scaled(1 / 1.5));
    element('whole').addEventListener('click', () => setWindow(0, model.slots));
    if (!model.eventAt.length) return void line(element('detail'), 'The schedule has no event.');
    lanes.addEventListener('scroll', ask);
    lanes.addEventListener('wheel', wheel, {passive: false});
    canvas.addEventListener('click', clicked);
    canvas.addEventListener('mousemove', pointed);
    lines.addEventListener('click', event => {
      const x = event.clientX - lines.getBoundingClientRect().left - GUTTER;
      if (x >= 0) choose(model.eventOfSlot(state.x.invert(x)), null);
    });
    for (const kind of ['pointerdown', 'pointermove']) overview.addEventListener(kind, dragOverview);
    new ResizeObserver(resize).observe(lanes);
    document.addEventListener('keydown', event => {
      if (event.ctrlKey || event.metaKey || event.altKey || /INPUT|SELECT|TEXTAREA/.test(event.target.tagName)) return;
      const does = KEYS[event.key];
      if (!does) return;
      event.preventDefault();
      does(event);
    });
    resize();
    setWindow(0, Math.min(model.slots, Math.max(state.width / 96, 10)));
    choose(0, null);
  }

  start();
  return {model, state, lanes, height, setWindow, choose, chooseNote, draw};
})();
