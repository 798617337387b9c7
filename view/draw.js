// Lanes of tracks on a canvas: of what is on a track, only what lies in the window is drawn, and of things narrower than a
// pixel only the first of each pixel.
'use strict';

// Colours of Okabe and Ito, which readers with any colour vision tell apart.
const COLOURS = {black: '#000000', orange: '#E69F00', sky: '#56B4E9', green: '#009E73', yellow: '#F0E442', blue: '#0072B2',
  red: '#D55E00', purple: '#CC79A7', grey: '#DDDDDD', white: '#FFFFFF'};
const LABEL_COLOURS = {load: 'sky', store: 'orange', drain: 'green', lr: 'purple', sc: 'purple', amo: 'purple', fence: 'yellow',
  call: 'grey', other: 'grey'};
const DARK = new Set(['black', 'blue', 'green', 'red']);
const STATE_COLOURS = {i: 'white', s: 'sky', m: 'red'};
const GUTTER = 170;
const TEXT = '11.5px system-ui, sans-serif';

// All tracks of a model from top to bottom, each with its place, what is on it (spans, sorted and apart), and how that is drawn.
function tracksOf(model) {
  const tracks = [];
  let y = 4;
  const title = (words, more) => { tracks.push({y, h: 20, title: words, more, spans: []}); y += 20; };
  const row = (h, name, spans, paint, marks) => { tracks.push({y, h, name, spans, paint, marks}); y += h + 2; };
  model.data.threads.forEach(({blade, domain, queue}, thread) => {
    title(`thread ${thread}`, `on blade ${blade}, domain ${domain}; room for ${queue} waiting store${queue > 1 ? 's' : ''}`);
    const labels = model.labelsOf[thread].map(index => {
      const begin = model.slotOf[model.labelAt[index]];
      return {kind: 'label', begin, end: begin + 1, label: index, place: model.labelAt[index]};
    });
    row(34, 'executes, drains', labels, paintLabel);
    model.queues[thread].forEach((bars, place) => row(14, place ? '' : 'stores that wait', bars, paintWaiting));
    y += 6;
  });
  model.data.frames.forEach((frames, blade) => {
    title(`blade ${blade}`, `pages held, of at most ${frames}`);
    const pages = [...(model.bars.get(blade) || new Map())].sort((one, other) => one[0] - other[0]);
    for (const [key, bars] of pages) row(18, pageWords(key), bars, paintBar);
    y += 6;
  });
  title('directory', 'entries over their pages');
  y = directoryTracks(model, tracks, y) + 6;
  if (model.commands.length) {
    title('commands', 'from the event that asks to the note that ends');
    for (const commands of packed(model.commands)) row(20, '', commands, paintCommand);
  }
  return {tracks, height: y + 8};
}

// The rows of the directory are the runs of pages that no entry parts; an entry stands over all rows of its block.
function directoryTracks(model, tracks, top) {
  const blocks = [...model.blocks.values()], edges = new Set();
  for (const {domain, first, log} of blocks) edges.add(pageKey(domain, first)).add(pageKey(domain, first + 2 ** log));
  const sorted = [...edges].sort((one, other) => one - other);
  const inUse = (from, to) => blocks.some(block => pageKey(block.domain, block.first) <= from && to <= pageKey(block.domain, block.first + 2 ** block.log));
  const height = sorted.length > 200 ? 6 : 18, places = new Map();
  let y = top;
  sorted.forEach((edge, index) => {
    places.set(edge, y);
    const next = sorted[index + 1];
    if (next === undefined || !inUse(edge, next)) return;
    tracks.push({y, h: height, name: height > 10 ? pagesWords(edge, next - edge) : '', spans: []});
    y += height + 2;
  });
  for (const block of blocks) {
    const from = places.get(pageKey(block.domain, block.first)), to = places.get(pageKey(block.domain, block.first + 2 ** block.log));
    tracks.push({y: from, h: to - from - 2, spans: block.spans, paint: paintEntry});
  }
  return y;
}

// Spans that may overlap, in as few rows as hold them apart.
function packed(spans) {
  const rows = [];
  for (const span of spans) {
    let row = rows.find(row => row[row.length - 1].end <= span.begin);
    if (!row) rows.push(row = []);
    row.push(span);
  }
  return rows;
}

function fitted(context, words, width) {
  if (width < 14) return '';
  if (context.measureText(words).width <= width) return words;
  const letters = Math.floor(width / context.measureText('n').width) - 1;
  return letters < 2 ? '' : words.slice(0, letters) + '…';
}

// A box with words in it; the words may use `room` pixels.
function box(context, {x, y, w, h}, colour, words, room = w) {
  context.fillStyle = COLOURS[colour];
  context.fillRect(x, y, w, h);
  if (w >= 3) {
    context.strokeStyle = '#00000066';
    context.strokeRect(x + 0.5, y + 0.5, w - 1, h - 1);
  }
  const text = h >= 12 ? fitted(context, words, room - 8) : '';
  if (!text) return;
  context.fillStyle = DARK.has(colour) ? '#FFFFFF' : '#000000';
  context.fillText(text, x + 4, y + h / 2 + 0.5);
}

// A box whose words go on behind it, as far as the track is free.
function overflowing(context, area, colour, lines) {
  box(context, area, colour, '');
  const words = lines.map(line => fitted(context, line, area.free - 6));
  if (!words[0]) return;
  const parts = [[area.x, area.w, DARK.has(colour) ? '#FFFFFF' : '#000000'], [area.x + area.w, area.free - area.w, '#000000']];
  for (const [x, w, ink] of parts) {
    if (w <= 0) continue;
    context.save();
    context.beginPath();
    context.rect(x, area.y, w, area.h);
    context.clip();
    context.fillStyle = ink;
    words.forEach((line, index) => context.fillText(line, area.x + 4, area.y + area.h * (lines.length === 1 ? 0.53 : index ? 0.73 : 0.29)));
    context.restore();
  }
}

function paintLabel(context, area, span, view) {
  const label = view.model.label(span.label), fault = label.says.startsWith('ends with a fault');
  overflowing(context, area, fault ? 'black' : LABEL_COLOURS[label.kind], laneWords(label));
}

function paintWaiting(context, area, span, view) {
  const label = view.model.label(span.label);
  box(context, area, 'orange', `${hex(label.stored, 2 * label.size)} for ${hex(label.address, 8)} waits`);
}

// A page to write has a bar of the whole height, one to read a lower one; a Down is marked by a notch.
function paintBar(context, area, bar, view) {
  const {x, y, w, h} = area, low = {x, y: y + h / 2, w, h: h / 2};
  if (bar.way === 'r') return box(context, {x, y: y + 5, w, h: h - 5}, 'sky', 'to read');
  const down = bar.down === null ? x + w : Math.min(Math.max(view.x(bar.down), x), x + w);
  if (down > x) box(context, {x, y, w: down - x, h}, 'red', 'to write');
  if (down < x + w) {
    box(context, {x: down, y: y + 5, w: x + w - down, h: h - 5}, 'sky', '   to read');
    if (view.x(bar.down) < 0) return;
    context.fillStyle = COLOURS.black;
    context.beginPath();
    context.moveTo(down - 1, y);
    context.lineTo(down + 9, y);
    context.lineTo(down + 4, y + 9);
    context.fill();
  }
}

function paintEntry(context, area, span) {
  const {x, y, w, h} = area;
  if (span.kind === 'entry') return box(context, {x, y: y + 1, w, h: h - 2}, STATE_COLOURS[span.state[0]], shortState(span.state));
  // a fork from the block to its halves, or a join
  const [from, to] = span.kind === 'split' ? [x, x + w] : [x + w, x];
  context.strokeStyle = COLOURS.black;
  context.lineWidth = 2;
  context.beginPath();
  for (const part of [0.25, 0.75]) {
    context.moveTo(from, y + h / 2);
    context.lineTo(to, y + h * part);
  }
  context.stroke();
  context.lineWidth = 1;
}

function paintCommand(context, area, command) {
  const colour = command.outcome === 'ok' ? 'green' : command.outcome === 'waiting' ? 'grey' : 'yellow';
  overflowing(context, area, colour, [`${command.index} ${command.text}: ${command.outcome}`]);
}

// The spans of a track from the first that ends behind `from` on, those that begin before `to`.
function firstBehind(spans, from) {
  let low = 0, high = spans.length;
  while (low < high) {
    const middle = (low + high) >> 1;
    if (spans[middle].end <= from) low = middle + 1; else high = middle;
  }
  return low;
}

// Draws a track's spans in the window; each one drawn is told to `drew`.
function drawTrack(context, track, view, drew) {
  const [from, to] = view.x.domain();
  for (let index = firstBehind(track.spans, from); index < track.spans.length && track.spans[index].begin < to;) {
    const span = track.spans[index], x = Math.max(view.x(span.begin), -2), end = Math.min(view.x(span.end), view.width + 2);
    const next = track.spans[index + 1], free = (next ? Math.min(view.x(next.begin), view.width) : view.width) - x;
    track.paint(context, {x, y: track.y - view.top, w: Math.max(end - x, 1), h: track.h, free}, span, view);
    drew(span);
    index = end - x >= 1 ? index + 1 : Math.max(index + 1, firstBehind(track.spans, view.x.invert(x + 1)));
  }
}

function drawLanes(context, view, drew) {
  context.clearRect(0, 0, view.width + GUTTER, view.height);
  context.font = TEXT;
  context.textBaseline = 'middle';
  context.save();
  context.beginPath();
  context.rect(GUTTER, 0, view.width, view.height);
  context.clip();
  context.translate(GUTTER, 0);
  drawGround(context, view);
  const seen = view.tracks.filter(track => track.y + track.h > view.top && track.y < view.top + view.height);
  for (const track of seen) if (track.paint) drawTrack(context, track, view, drew);
  drawSelection(context, view);
  context.restore();
  drawGutter(context, view, seen);
}

// Every other event on a grey ground, and what a search found on a yellow one.
function drawGround(context, view) {
  const {model, x} = view, [from, to] = x.domain();
  const first = Math.max(model.eventOfSlot(from), 0), last = model.eventOfSlot(to);
  if ((last - first) * 3 < view.width) {
    context.fillStyle = '#F3F3F3';
    for (let event = first + (first + 1) % 2; event <= last; event += 2) {
      const left = x(model.eventSlot[event]);
      context.fillRect(left, 0, x(model.eventEnd(event)) - left, view.height);
    }
  }
  context.fillStyle = '#F0E44288';
  let pixel = -1;
  for (let index = firstAtLeast(view.foundSlots, from - 1); index < view.foundSlots.length && view.foundSlots[index] < to; index++) {
    const left = x(view.foundSlots[index]), width = Math.max(x(view.foundSlots[index] + 1) - left, 1);
    if (Math.floor(left) === pixel) continue;
    pixel = Math.floor(left);
    context.fillRect(left, 0, width, view.height);
  }
}

function drawSelection(context, view) {
  const {model, x, event, place} = view;
  const left = x(model.eventSlot[event]), right = x(model.eventEnd(event));
  context.strokeStyle = COLOURS.black;
  context.setLineDash([4, 3]);
  context.strokeRect(left, -2, right - left, view.height + 4);
  context.setLineDash([]);
  if (place === null) return;
  context.lineWidth = 3;
  const track = view.trackOf(place), slot = model.slotOf[place];
  if (track) context.strokeRect(x(slot), track.y - view.top - 1, Math.max(x(slot + 1) - x(slot), 3), track.h + 2);
  else context.strokeRect(x(slot), 0, Math.max(x(slot + 1) - x(slot), 3), view.height);
  context.lineWidth = 1;
}

function drawGutter(context, view, seen) {
  context.fillStyle = '#FFFFFF';
  context.fillRect(0, 0, GUTTER, view.height);
  context.strokeStyle = '#888888';
  context.strokeRect(GUTTER - 0.5, -1, 0.01, view.height + 2);
  context.fillStyle = COLOURS.black;
  for (const {y, h, title, more, name} of seen) {
    if (title) {
      context.font = 'bold ' + TEXT;
      context.fillText(title, 8, y - view.top + h / 2);
      context.font = TEXT;
      context.fillStyle = '#444444';
      context.fillText(more, GUTTER + 6, y - view.top + h / 2);
      context.fillStyle = COLOURS.black;
    } else if (name) {
      context.fillText(fitted(context, name, GUTTER - 22), 18, y - view.top + h / 2);
    }
  }
}

// The schedule under the lanes: a row of its lines and a row of its events.
function drawLines(context, view, drew) {
  const {model, x} = view, [from, to] = x.domain();
  context.clearRect(0, 0, view.width + GUTTER, 60);
  context.font = TEXT;
  context.textBaseline = 'middle';
  context.fillStyle = COLOURS.black;
  context.fillText('line of the schedule', 8, 14);
  context.fillText('event', 8, 38);
  context.save();
  context.beginPath();
  context.rect(GUTTER, 0, view.width, 60);
  context.clip();
  context.translate(GUTTER, 0);
  let drawnTo = -1;
  for (let event = Math.max(model.eventOfSlot(from), 0); event < model.eventSlot.length && model.eventSlot[event] < to;) {
    const line = model.lineOf(event), next = model.data.lines[line.index + 1];
    const following = next ? next[1] : model.eventSlot.length; // the first event of another line
    const begin = model.eventSlot[model.data.lines[line.index][1]], end = model.eventEnd(following - 1);
    const left = Math.max(x(begin), 0), right = Math.min(x(end), view.width + 2);
    if (right - drawnTo >= 1) {
      box(context, {x: left, y: 3, w: Math.max(right - left, 1), h: 22}, line.index % 2 ? 'white' : 'grey', `${line.number}: ${line.text}`);
      drawnTo = right;
    }
    event = following;
    if (right - left < 1) event = Math.max(event, model.eventOfSlot(x.invert(left + 1)));
  }
  const first = Math.max(model.eventOfSlot(from), 0), last = model.eventOfSlot(to);
  if ((last - first) * 4 < view.width) {
    for (let event = first; event <= last; event++) {
      const left = x(model.eventSlot[event]), shown = Math.max(left, 0);
      box(context, {x: shown, y: 27, w: x(model.eventEnd(event)) - shown, h: 22}, event === view.event ? 'yellow' : event % 2 ? 'grey' : 'white',
        model.lineOf(event).words);
      drew({kind: 'event', event});
    }
  }
  context.restore();
}
