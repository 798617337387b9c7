// What is drawn of a run, made of its journal's notes. Time is counted in slots: a note has a slot of its own, and so has an
// event without notes; all that is kept of a note is where it stands. Nothing here is proved.
'use strict';

// The place of the first element of a sorted list that is at least `value`.
function firstAtLeast(list, value) {
  let low = 0, high = list.length;
  while (low < high) {
    const middle = (low + high) >> 1;
    if (list[middle] < value) low = middle + 1; else high = middle;
  }
  return low;
}

// The blocks and pages of a run, so that a page of a domain has one number.
const PAGES_OF_A_DOMAIN = 1 << 20;
const pageKey = (domain, number) => domain * PAGES_OF_A_DOMAIN + number;

class Model {
  constructor(data, journal) {
    this.data = data;
    this.notes = journal.split('\n').slice(1, -1);
    this.slotOf = new Int32Array(this.notes.length); // of each note
    this.eventAt = []; // of each event its note
    this.eventSlot = []; // and its first slot
    this.labelAt = []; // of each label its note
    this.bars = new Map(); // of each blade, of each page: when the page was held
    this.blocks = new Map(); // of each block: when it had an entry, in which state
    this.commands = data.commands.map(([event, text], index) => ({index, event, text, outcome: data.outcomes[index], end: null}));
    this.splits = this.merges = this.peak = 0;
    this.place();
    this.read();
    this.queues = this.data.threads.map((_, thread) => this.queueOf(thread));
  }

  // Gives each note its slot.
  place() {
    let slot = 0, empty = false;
    this.notes.forEach((note, place) => {
      if (note[0] === 'e') {
        if (empty) slot += 1;
        empty = true;
        this.eventAt.push(place);
        this.eventSlot.push(slot);
        this.slotOf[place] = slot;
      } else {
        empty = false;
        this.slotOf[place] = slot;
        slot += 1;
      }
    });
    this.slots = slot + (empty ? 1 : 0);
  }

  read() {
    const inForce = new Map();
    this.labelsOf = this.data.threads.map(() => []);
    this.notes.forEach((note, place) => {
      const kind = note[0];
      if (kind === 'e') return;
      const slot = this.slotOf[place];
      if (kind === 'x' || kind === 'd') {
        this.labelsOf[this.data.labels[this.labelAt.length][1]].push(this.labelAt.length);
        this.labelAt.push(place);
        return;
      }
      const words = note.split(' ').slice(1);
      if (kind === 'c' || kind === 'm') {
        if (kind === 'c') this.labelAt.push(place);
        Object.assign(this.commands[+words[0]], {end: slot + 1, note: place});
      } else if (kind === 't' || kind === 'g' || kind === 'l') {
        this.readHolding(kind, words, slot, place);
      } else {
        this.readEntry(kind, words, slot, place, inForce);
        this.peak = Math.max(this.peak, inForce.size);
      }
    });
    for (const pages of this.bars.values()) for (const bars of pages.values()) this.close(bars[bars.length - 1]);
    for (const block of this.blocks.values()) this.close(block.spans[block.spans.length - 1]);
    for (const command of this.commands) {
      command.begin = this.eventSlot[command.event];
      if (command.end === null) command.end = this.slots;
    }
  }

  close(span) {
    if (span && span.end === null) span.end = this.slots;
  }

  // A bar begins at a Take, and ends at a Give or where the same blade takes the page anew.
  readHolding(kind, words, slot, place) {
    const [blade, domain, number] = words.slice(0, 3).map(Number);
    if (!this.bars.has(blade)) this.bars.set(blade, new Map());
    const pages = this.bars.get(blade), key = pageKey(domain, number);
    if (!pages.has(key)) pages.set(key, []);
    const bars = pages.get(key), last = bars[bars.length - 1];
    if (kind === 't') {
      if (last && last.end === null) Object.assign(last, {end: slot, until: place, ended: 'take'});
      bars.push({begin: slot, end: null, since: place, until: Infinity, way: words[3], down: null, ended: null, blade, key});
    } else if (last && last.end === null) {
      if (kind === 'l') Object.assign(last, {down: slot, lowered: place});
      else Object.assign(last, {end: slot + 1, until: place, ended: 'give'});
    }
  }

  block(domain, first, log) {
    const name = `${domain} ${first} ${log}`;
    if (!this.blocks.has(name)) this.blocks.set(name, {name, domain, first, log, spans: []});
    return this.blocks.get(name);
  }

  enter(block, begin, state, place, inForce) {
    this.leave(block, begin, inForce);
    block.spans.push({kind: 'entry', begin, end: null, state, place, block});
    inForce.set(block.name, state);
  }

  leave(block, end, inForce) {
    const last = block.spans[block.spans.length - 1];
    if (last && last.end === null) last.end = end;
    inForce.delete(block.name);
  }

  readEntry(kind, words, slot, place, inForce) {
    const [domain, first, log] = words.slice(0, 3).map(Number);
    const block = this.block(domain, first, log);
    if (kind === 'r') return this.enter(block, slot, words.slice(3).join(' '), place, inForce);
    if (kind === 'o') return this.leave(block, slot, inForce);
    const halves = log === 0 ? [] : [0, 1].map(half => this.block(domain, first + half * 2 ** (log - 1), log - 1));
    const states = halves.map(half => inForce.get(half.name));
    if (kind === 's' && inForce.has(block.name) && halves.length) {
      const state = inForce.get(block.name);
      this.leave(block, slot, inForce);
      block.spans.push({kind: 'split', begin: slot, end: slot + 1, place, block});
      for (const half of halves) this.enter(half, slot + 1, state, place, inForce);
      this.splits += 1;
    } else if (kind === 'j' && halves.length && states.every(state => state !== undefined)) {
      for (const half of halves) this.leave(half, slot, inForce);
      block.spans.push({kind: 'merge', begin: slot, end: slot + 1, place, block});
      this.enter(block, slot + 1, joined(...states), place, inForce);
      this.merges += 1;
    }
  }

  // When stores of a thread waited in its queue: bars in rows, a store in the lowest free one.
  queueOf(thread) {
    const rows = [], taken = [], rowOf = new Map();
    for (const label of this.labelsOf[thread]) {
      const {kind, stored, store} = this.label(label), slot = this.slotOf[this.labelAt[label]];
      if (kind === 'store' && stored !== null) {
        let row = taken.indexOf(false);
        if (row < 0) row = taken.length;
        taken[row] = true;
        if (!rows[row]) rows[row] = [];
        rowOf.set(label, row);
        rows[row].push({kind: 'waiting', begin: slot, end: this.slots, label, drain: null});
      } else if (kind === 'drain') {
        const row = rowOf.get(store), bars = rows[row];
        taken[row] = false;
        Object.assign(bars[bars.length - 1], {end: slot, drain: label});
      }
    }
    return rows;
  }

  label(index) {
    const [kind, thread, pc, word, register, value, address, size, stored, source, store, says] = this.data.labels[index];
    return {index, kind, thread, pc, word, register, value, address, size, source, store, says: says || '',
      stored: stored === undefined ? null : stored, text: word == null ? '' : this.data.texts[word]};
  }

  // The label that a note is, or -1.
  labelOf(place) {
    const index = firstAtLeast(this.labelAt, place);
    return this.labelAt[index] === place ? index : -1;
  }

  eventOf(place) {
    const index = firstAtLeast(this.eventAt, place);
    return this.eventAt[index] === place ? index : index - 1;
  }

  eventOfSlot(slot) {
    const index = firstAtLeast(this.eventSlot, slot);
    return this.eventSlot[index] === slot ? index : index - 1;
  }

  // The notes of an event behind its own one.
  notesOf(event) {
    const end = event + 1 < this.eventAt.length ? this.eventAt[event + 1] : this.notes.length;
    return d3.range(this.eventAt[event] + 1, end);
  }

  eventEnd(event) {
    return event + 1 < this.eventSlot.length ? this.eventSlot[event + 1] : this.slots;
  }

  // The line of the schedule that an event is of, and its words; `run` written out.
  lineOf(event) {
    if (!this.firsts) this.firsts = this.data.lines.map(line => line[1]);
    const index = firstAtLeast(this.firsts, event + 1) - 1;
    const [number, first, text] = this.data.lines[index];
    if (!text.startsWith('run ')) return {index, number, text, words: text};
    const place = event - first, thread = Math.floor(place % (4 * this.data.threads.length) / 4);
    return {index, number, text, words: [`step ${thread}`, 'settle', `drain ${thread}`, 'settle'][place % 4]};
  }

  // The page of a label's access, as a key, or null.
  pageOf(label) {
    return label.address == null ? null : pageKey(this.data.threads[label.thread].domain, Math.floor(label.address / 4096));
  }

  // Who holds a page at a note: the bars that began before it and have not ended.
  holders(key, place) {
    const held = [];
    for (const pages of this.bars.values()) {
      const bar = (pages.get(key) || []).find(bar => bar.since <= place && place < bar.until);
      if (bar) held.push({blade: bar.blade, way: bar.way === 'w' && !(bar.lowered < place) ? 'w' : 'r', since: bar.since});
    }
    return held.sort((one, other) => one.blade - other.blade);
  }

  // The registers of a thread right before a label, those that are not 0.
  registersBefore(label) {
    const own = this.labelsOf[label.thread], found = new Map();
    for (let place = firstAtLeast(own, label.index) - 1; place >= 0 && found.size < 31; place--) {
      const {register, value} = this.label(own[place]);
      if (register != null && !found.has(register)) found.set(register, value);
    }
    return [...found].filter(([, value]) => value !== 0).sort((one, other) => one[0] - other[0]);
  }

  // What the report counts, as it is found in the journal.
  counts() {
    const bars = [...this.bars.values()].flatMap(pages => [...pages.values()].flat());
    return {events: this.eventAt.length, labels: this.labelAt.length, takes: bars.length,
      gives: bars.filter(bar => bar.ended === 'give').length, downs: bars.filter(bar => bar.down !== null).length,
      peak: this.peak, splits: this.splits, merges: this.merges};
  }
}

// The state of an entry that is made of two: modified where one is, else shared by the sharers of both, else invalid.
function joined(one, other) {
  for (const state of [one, other]) if (state[0] === 'm') return state;
  const sharers = [one, other].reduce((all, state) => all | (state[0] === 's' ? +state.slice(2) : 0), 0);
  return sharers ? `s ${sharers}` : 'i';
}
