// Notes and labels in words.
'use strict';

const hex = (value, digits) => value.toString(16).padStart(digits, '0');
const pagesWords = (key, pages) => {
  const domain = Math.floor(key / PAGES_OF_A_DOMAIN), number = key % PAGES_OF_A_DOMAIN;
  return (pages > 1 ? `pages ${number} to ${number + pages - 1}` : `page ${number}`) + (domain ? ` of domain ${domain}` : '');
};
const pageWords = key => pagesWords(key, 1);
const blockWords = ({domain, first, log}) => pagesWords(pageKey(domain, first), 2 ** log);
const bladesOf = sharers => d3.range(8).filter(blade => sharers >> blade & 1);

function stateWords(state) {
  const [letter, number] = state.split(' ');
  if (letter === 'i') return 'invalid';
  if (letter === 'm') return `modified, of blade ${number}`;
  const blades = bladesOf(+number);
  return `shared, by blade${blades.length > 1 ? 's' : ''} ${blades.join(', ')}`;
}

function shortState(state) {
  const [letter, number] = state.split(' ');
  return letter === 'i' ? 'I' : letter === 'm' ? `M ${number}` : `S ${bladesOf(+number).join(',')}`;
}

// What a label did, shortly.
function resultWords(label) {
  const told = [];
  if (label.register != null) told.push(`x${label.register} = ${hex(label.value, 8)}`);
  if (label.stored != null && label.kind !== 'drain') {
    told.push(`${label.kind === 'store' ? 'queued:' : 'stored:'} ${hex(label.stored, 2 * label.size)} at ${hex(label.address, 8)}`);
  }
  if (label.says) told.push(label.says);
  return told.join('; ');
}

// In its lane a label has its instruction on one line, and what came of it on the next.
function laneWords(label) {
  const short = value => `0x${value.toString(16)}`;
  const told = [];
  if (label.stored != null) told.push(`${short(label.stored)} → ${short(label.address)}`);
  if (label.register != null) told.push(`x${label.register} = ${short(label.value)}`);
  if (label.source) told.push(`from ${short(label.address)}`);
  if (label.says) told.push(label.says);
  return [label.kind === 'drain' ? 'drain' : `${label.text || 'no word'}  at ${short(label.pc)}`, told.join(', ')];
}

function labelWords(label) {
  if (label.kind === 'command') return `the command takes effect: ${label.says}`;
  if (label.kind === 'drain') {
    return `thread ${label.thread} drains ${hex(label.stored, 2 * label.size)} to ${hex(label.address, 8)}`;
  }
  const result = resultWords(label);
  return `thread ${label.thread} executes ${label.text || 'no word of its image'} at ${hex(label.pc, 8)}${result ? ` (${result})` : ''}`;
}

function noteWords(model, place) {
  const note = model.notes[place], [kind, ...words] = note.split(' ');
  if (kind === 'x' || kind === 'd') return labelWords(model.label(model.labelOf(place)));
  if (kind === 'c' || kind === 'm') {
    const command = model.commands[+words[0]];
    return `command ${command.index} (${command.text}) ends with ${command.outcome}`;
  }
  if (kind === 'e') return `event ${words[0]} begins`;
  const [first, second, third] = words.map(Number);
  if (kind === 't') return `blade ${first} takes ${pageWords(pageKey(second, third))} to ${words[3] === 'w' ? 'write' : 'read'}`;
  if (kind === 'g') return `blade ${first} gives ${pageWords(pageKey(second, third))} up`;
  if (kind === 'l') return `blade ${first} may only read ${pageWords(pageKey(second, third))} now`;
  const block = `the entry of ${blockWords({domain: first, first: second, log: third})}`;
  if (kind === 'r') return `${block} is ${stateWords(words.slice(3).join(' '))}`;
  return `${block} ${{o: 'goes', s: 'is split into halves', j: 'is merged from its halves'}[kind]}`;
}

// The kinds that a search knows, and that of a note.
const KINDS = ['load', 'store', 'drain', 'lr', 'sc', 'amo', 'fence', 'call', 'other', 'fault', 'take', 'give', 'down', 'entry', 'gone',
  'split', 'merge', 'command'];
const NOTE_KINDS = {t: 'take', g: 'give', l: 'down', r: 'entry', o: 'gone', s: 'split', j: 'merge', c: 'command', m: 'command'};

function kindOf(model, place) {
  const letter = model.notes[place][0];
  if (letter !== 'x' && letter !== 'd') return NOTE_KINDS[letter];
  const label = model.data.labels[model.labelOf(place)];
  return (label[11] || '').startsWith('ends with a fault') ? 'fault' : label[0];
}

// The pages that a note speaks of, as a domain, a first page and how many: that of its access, the page that is held, or the
// block of an entry or a command. None of a label without an access.
function pagesOf(model, place) {
  const [kind, ...words] = model.notes[place].split(' ');
  if (kind === 'x' || kind === 'd') {
    const label = model.label(model.labelOf(place));
    return label.address == null ? null : [model.data.threads[label.thread].domain, Math.floor(label.address / 4096), 1];
  }
  const numbers = words.map(Number);
  if ('tgl'.includes(kind)) return [numbers[1], numbers[2], 1];
  if ('rosj'.includes(kind)) return [numbers[0], numbers[1], 2 ** numbers[2]];
  const [, domain, first, pages] = model.commands[numbers[0]].text.split(' ').map(Number);
  return [domain, first, kind === 'm' ? 2 ** pages : pages];
}

// Whether a note speaks of a page that is asked for by its number, in one domain or in any (null).
function speaksOfPage(model, place, {domain, number}) {
  const pages = pagesOf(model, place);
  return pages !== null && (domain === null || pages[0] === domain) && pages[1] <= number && number < pages[1] + pages[2];
}

// The notes that a search finds; what is null is not asked for.
function found(model, {page, thread, kind}) {
  const matches = [];
  if (page === null && thread === null && kind === null) return matches;
  for (let place = 0; place < model.notes.length; place++) {
    const letter = model.notes[place][0];
    if (letter === 'e') continue;
    if (thread !== null && ((letter !== 'x' && letter !== 'd') || +model.notes[place].slice(2) !== thread)) continue;
    if (kind !== null && kindOf(model, place) !== kind) continue;
    if (page !== null && !speaksOfPage(model, place, page)) continue;
    matches.push(place);
  }
  return matches;
}
