'use strict';
// The page around a drawing. The SVG that `nobj draw` writes stands in the page as text, and is what is shown: this script
// reads its lines, puts those into the page that are in view, and moves rows together where others are hidden. What it adds
// are patterns beside colours, the words in which an entry is spelt out, and bytes as text.

const ROW = 16; // from one row to the next
const COLUMN = 320; // from one lifeline to the next, where no more than three bars stand beside each other: the longest words fit between
const OVER = 40; // rows that are drawn above those in view, and below them
const LONGEST = 64; // of the text of a row, as it is where it was cut
const SVG = 'http://www.w3.org/2000/svg';

// ---- reading the drawing

const LINE = /^<line class='([a-z -]+)' x1='(\d+)' y1='(\d+)' x2='(\d+)' y2='(\d+)'\/>$/;
const BOX = /^<rect class='(live|listed|pinned)' x='(\d+)' y='(\d+)' width='9' height='(\d+)'><title>(.*)<\/title><\/rect>$/;
const TEXT = /^<text class='([a-z ]+)' x='(\d+)' y='(\d+)'(?: data-lives='([\d. ]*)')?>(.*)<\/text>$/;
const SHOWN = /^<text class='shown' x='12' y='38'>shown: (.*)<\/text>$/;

const plain = words => words.includes('&') ? words.replace(/&lt;/g, '<').replace(/&gt;/g, '>').replace(/&amp;/g, '&') : words;
const spaceAt = x => (x - 250) / 250;
const placeAt = y => (y - 120) / ROW;

// The words of a frame as they stand at an arrow: a method of the agent by its name, and bytes as text if they are one.
const METHODS = ['put', 'get', 'remove'];
const atArrow = words => words.replace(/^Call \d+\.0 (\d+) /, (all, method) => `Call agent ${METHODS[method] || method} `)
  .replace(/ b((?:[2-6][0-9a-f]|7[0-9a-e])+)$/, (all, hex) => ` "${hex.replace(/../g, it => String.fromCharCode(parseInt(it, 16)))}"`);

// What a lost frame is: by the row's text, if it is whole up to there; else by the words that stand beside it where it is one of the first two
// of its row.
function nameLost(lost, row, words) {
  const given = row.text.slice(row.text.indexOf(' = ') + 3).split(', '), isWhole = lost.place < given.length - (isCut(row.text) ? 1 : 0);
  lost.words = isWhole ? atArrow(given[lost.place]) : words;
}

// What a drawing shows. A *place* is that of a row among those drawn, from 1; 0 is above them all, one more than there are below.
function read(text) {
  const run = { shown: '', spaces: 0, rows: [], bars: [], arrows: [], lost: [], strays: [] }, lines = text.split('\n');
  const add = (list, it) => list.push(Object.assign(it, { number: list.length }));
  let i = lines.findIndex(line => line.startsWith("<line class='life'")), crossed = null, strayed = null, number = 0, lives = '', heads = null, headed = 0;
  if (i < 0 || !lines[0].startsWith('<svg ')) throw new Error('this is no drawing');
  const shown = lines.slice(0, i).map(line => SHOWN.exec(line)).find(it => it);
  if (shown) run.shown = plain(shown[1]);
  for (; lines[i] !== '</svg>'; i++) {
    const line = lines[i], kind = line && line.slice(13, line.indexOf("'", 13));
    let it;
    if (line === undefined) throw new Error('the drawing has no end');
    if (kind === 'guide' || kind === 'life' || kind === 'held' || kind === 'void') continue;
    if (/^<rect class='[arcf]/.test(line)) continue; // the point of a row
    if ((it = TEXT.exec(line))) {
      const words = plain(it[5]);
      if (kind === 'number') {
        if (it[4] === undefined) throw new Error(`a row that doesn't say of whose lives it is part: ${line}`);
        number = Number(words);
        lives = `${it[4]} `;
      } else if (kind === 'name') run.spaces++;
      else if (kind === 'gloss') run.rows[run.rows.length - 1].gloss = words;
      else if (!kind.startsWith('words')) {
        add(run.rows, { kind, text: words, space: parseInt(words, 10), row: number, lives, gloss: '' });
        if (placeAt(it[3] - 4) !== run.rows.length) throw new Error(`a row stands where another is due: ${line}`);
      } else if (strayed) {
        strayed.words = words;
        strayed = null;
      } else if (crossed && Number(it[3]) === crossed.bottom + 4) {
        nameLost(crossed, run.rows[crossed.start - 1], words);
        crossed = null;
      } else {
        // behind all else stand the words of the arrows whose heads are shown, in their order
        heads = heads || run.arrows.filter(arrow => arrow.end <= run.rows.length);
        if (headed === heads.length) throw new Error(`words without an arrow: ${line}`);
        Object.assign(heads[headed++], { words, before: kind === 'words before' });
      }
    } else if ((it = LINE.exec(line))) {
      const [x, y, right, bottom] = it.slice(2).map(Number), start = placeAt(y), from = spaceAt(x);
      if (kind === 'cross') continue;
      if (kind.startsWith('lost')) {
        const at = placeAt(bottom - 5), row = run.rows[at - 1], reach = Math.abs(right - 250 - 250 * row.space) - 40;
        const place = reach < 220 ? reach / 110 : 2 + (reach - 220) / 12, before = run.lost.filter(other => other.start === at).length;
        add(run.lost, { style: kind, from: row.space, start: at, right: right > 250 + 250 * row.space, down: 12 + 12 * Math.min(before, 6), place, bottom });
        crossed = run.lost[run.lost.length - 1];
        nameLost(crossed, row, '');
      } else if (kind === 'sent stray') {
        add(run.strays, { to: spaceAt(right), end: placeAt(bottom), left: x < right, words: '' });
        strayed = run.strays[run.strays.length - 1];
      } else add(run.arrows, { style: kind, from, start, to: spaceAt(right), end: placeAt(bottom), words: '' });
    } else if ((it = BOX.exec(line))) {
      const x = it[2] - 258, start = placeAt(it[3]), words = plain(it[5]), ref = words.split(' ')[0];
      // the bars of an object and of its clients stand at its owner; a pin stands where its lane is a whole number
      let space = it[1] === 'pinned' ? Math.floor(x / 250) : parseInt(ref, 10);
      while ((x - 250 * space) % 11 !== 0 && space > 1) space--;
      add(run.bars, { style: it[1], space, lane: (x - 250 * space) / 11, start, end: start + it[4] / ROW, words, ref });
    } else throw new Error(`no line of a drawing: ${line}`);
  }
  return run;
}

// Whether a text was cut short: no whole one ends so.
const isCut = text => text.endsWith('..');

// Where a text names references, which can be clicked there: a reference, or the object that a space withdraws or on which its job is, which stands
// there without its owner. A number at which the text is cut is none, since it may go on.
const NAMES = /(?<![\d.])\d+\.\d+(?!\d)|(?<=^\d+ withdraw )\d+|(?<= = job \d+ from \d+ call \d+ on )\d+/g;
function namesIn(text, space) {
  const whole = isCut(text) ? text.length - 2 : Infinity;
  return [...text.matchAll(NAMES)].filter(it => it.index + it[0].length < whole)
    .map(it => ({ at: it.index, words: it[0], ref: it[0].includes('.') ? it[0] : `${space}.${it[0]}` }));
}

// The places of the rows that are part of a reference's life: the drawing says with each row of whose.
function lifeOf(ref) {
  const name = ` ${ref} `;
  return new Set(run.rows.filter(row => row.lives.includes(name)).map(row => row.number + 1));
}

// ---- words for a reader

const FILTERS = {
  refusals: row => row.kind === 'refused',
  Acks: row => /^\d+ (arrive Ack \d+ = |send \d+ = Ack \d+(, Ack \d+)*$)/.test(row.text),
  ticks: row => /^\d+ tick /.test(row.text),
  'empty sends': row => /^\d+ send \d+ = none$/.test(row.text),
};

const REASONS = ['', 'it was asked to', 'the peer closed', 'the retries are used up', 'a bad item or acknowledgement came',
  'a bad reference came', 'an item came out of place'];

const EVENTS = [
  [/^export$/, 'makes an object'], [/^claim$/, 'claims a job'], [/^arrive (.*)$/, 'receives {frame}'],
  [/^settle$/, 'looks for a message whose references are all resolved'], [/^clean$/, 'looks for a reference that it uses no more'],
  [/^dup (\S+)$/, 'holds $1 once more'], [/^release (\S+)$/, 'holds $1 once less'],
  [/^call (\S+) (\d+) (.*)$/, 'calls method $2 of $1 with $3'], [/^take (\d+)$/, 'takes the reply to its call $1'],
  [/^finish (\d+) answer (.*)$/, 'ends job $1 with the answer $2'], [/^finish (\d+) fault (.*)$/, 'ends job $1 with the fault $2'],
  [/^finish (\d+) nomethod$/, 'ends job $1, as there is no such method'],
  [/^act (\d+)$/, 'acts on the next item from space $1'], [/^send (\d+)$/, 'transmits to space $1'],
  [/^tick (\d+)$/, 'ticks its session with space $1'], [/^close (\d+)$/, 'closes its session with space $1'],
  [/^open (\d+)$/, 'opens its session with space $1 anew'], [/^withdraw (\d+)$/, 'withdraws its object {space}.$1'],
];

const FRAMES = [
  [/^Call agent (\S+) (.*)$/, "a call of the agent's method $1 with $2"], [/^Call (\S+) (\d+) (.*)$/, 'a call of method $2 of $1 with $3'], [/^Settle (\d+)$/, 'word that the references of item $1 are resolved'],
  [/^Reply (\d+) 0 (.*)$/, 'the answer to call $1, which is $2'], [/^Reply (\d+) 1 (.*)$/, 'the fault of call $1, which is $2'],
  [/^Reply (\d+) 2 .*$/, 'word that there is no method for call $1'], [/^Reply (\d+) 3 .*$/, 'word that a reference of call $1 was lost'],
  [/^Dirty (\S+)$/, 'the wish to be listed for $1'], [/^DirtyOk (\S+)$/, 'word that it is listed for $1'],
  [/^DirtyNo (\S+)$/, "word that $1 isn't live"], [/^Clean (\S+)$/, 'word that $1 is used no more'],
  [/^Ack (\d+)$/, 'word that the items before item $1 were accepted'], [/^Close (\d)$/, 'word that the session has closed, since {reason}'],
];

const ANSWERS = [
  [/^exported (\S+)$/, 'it is $1'], [/^ok$/, 'done'], [/^call (\d+)$/, 'this is its call $1'], [/^withdrawn$/, 'it is live no more'],
  [/^reply 0 (.*)$/, 'it is the answer $1'], [/^reply 1 (.*)$/, 'it is the fault $1'], [/^reply 2 .*$/, 'there was no such method'],
  [/^reply 3 .*$/, 'a reference was lost'], [/^ended$/, 'the call has ended, and there is none'],
  [/^job (\d+) from (\d+) call (\d+) on (\d+) method (\d+) (.*)$/, 'job $1, which is call $3 of space $2, of method $5 of {space}.$4, with $6'],
  [/^finished$/, 'the reply is handed over'], [/^dropped$/, 'the reply is dropped, since the session of its call is over'],
  [/^acted (\d+)$/, 'it was item $1'], [/^closed (\d)$/, 'the session closes here, since {reason}'], [/^opened (\d+)$/, 'session $1 begins here'],
  [/^settled (\d+) (\d+)$/, 'that is item $2 from space $1, and it says so'], [/^cleaned (\S+)$/, 'it gives $1 up'],
  [/^took 0$/, 'no item is accepted by that'], [/^took 1$/, 'one item is accepted by that'],
  [/^took (\d+)$/, '$1 items are accepted by that'], [/^none$/, 'there was nothing to give'],
];

const REFUSALS = {
  S1: 'there is no such peer', S2: 'the session is closed here', S3: "the object isn't live", S4: "the reference isn't held",
  S5: '4,096 items to the peer are unacknowledged', S6: 'the numbers of items are used up', S7: 'the value has no pickle',
  S8: 'there is no such call, or its reply was taken', S9: "the reply isn't ready", S10: 'there is nothing to do',
  'S11(1)': 'its owner still holds it', 'S11(2)': 'a reference to it is in transit from its owner',
  'S11(3)': 'a client is listed for it', 'S11(4)': 'it is the agent', S12: "the job isn't running", S13: 'a limit is reached',
  S15: 'the session is open here', S16: 'a reference of that peer is held, pinned or waits here',
};

// The first of some sentences whose form a text has.
function sentence(sentences, text, space) {
  for (const [form, words] of sentences) {
    const it = form.exec(text);
    const others = { '{space}': () => space, '{frame}': () => sentence(FRAMES, it[1]), '{reason}': () => REASONS[it[1]] || `the reason is ${it[1]}` };
    if (it) return words.replace(/\{\w+\}|\$(\d)/g, (name, n) => n ? it[n] : others[name]());
  }
  return text;
}

// An entry, spelt out.
function spelt(row) {
  const [, event, answer] = /^\d+ (.*?)(?: = (.*))?$/.exec(row.text);
  const does = `Space ${row.space} ${sentence(EVENTS, event, row.space)}`;
  if (answer === undefined) return `${does}.`;
  if (REFUSALS[answer]) return `${does}. Refused: ${REFUSALS[answer]} (${answer}).`;
  return `${does}: ${event.startsWith('send ') && answer !== 'none' ? answer : sentence(ANSWERS, answer, row.space)}.`;
}

// The bytes in a text that are a text themselves, in quotes; and the text with each of these behind its bytes.
const BYTES = /(?<=[ [,])b((?:[0-9a-f]{2})+)([0-9a-f]?\.\.)?/g;
function asText(hex, more) {
  try {
    const text = new TextDecoder('utf-8', { fatal: true }).decode(Uint8Array.from(hex.match(/../g), it => parseInt(it, 16)));
    return /^[^\p{C}\p{Zl}\p{Zp}]+$/u.test(text) ? ` "${text}${more ? '..' : ''}"` : '';
  } catch {
    return '';
  }
}
const textsIn = text => / b|,b|\[b/.test(text) ? [...text.matchAll(BYTES)].map(it => asText(it[1], it[2])).join('') : '';
const withTexts = text => text.replace(BYTES, (all, hex, more) => all + asText(hex, more));

const figure = n => n.toLocaleString('en');
const counted = (n, one, many = `${one}s`) => `${figure(n)} ${n === 1 ? one : many}`;

// ---- what is shown

const part = id => document.getElementById(id);
const view = part('view'), picture = part('picture'), overview = part('overview');
const state = {
  life: null, filters: {}, zoom: 1, // what was asked for
  places: [], at: null, bars: [], lanes: [], columns: [], column: 470, width: 0, // where what is shown stands
  hits: [], isHit: new Set(), current: -1, chosen: 0, held: null, pointed: null, drawn: null,
};
let run, marks = [];

const scale = () => ROW * state.zoom;
const numberOf = place => run.rows[place - 1].row;
const isShown = place => Number.isInteger(state.at[place]);
const placeAtTop = () => state.places[Math.max(0, Math.ceil(view.scrollTop / scale()) - 1)] || 1;

// Which rows are shown, and where each stands: one that isn't shown stands between those that are.
function choose() {
  const all = run.rows.length, life = state.life && lifeOf(state.life);
  const filters = word => Object.keys(state.filters).filter(it => state.filters[it] === word).map(it => FILTERS[it]);
  const hidden = filters('hidden'), alone = filters('alone');
  const isWanted = row => !hidden.some(it => it(row)) && (alone.length === 0 || alone.some(it => it(row)));
  state.places = [];
  state.at = new Float64Array(all + 2);
  run.rows.forEach((row, i) => {
    const is = row.kind === 'fault' || ((!life || life.has(i + 1)) && isWanted(row));
    state.at[i + 1] = is ? state.places.push(i + 1) : state.places.length + 0.5;
  });
  state.at[all + 1] = state.places.length + 1;
  // the lanes that are used, and columns as wide as these need; a life has none of the spaces that have no part in it
  state.bars = life ? run.bars.filter(it => it.ref === state.life) : run.bars;
  const used = Array.from({ length: run.spaces + 1 }, () => new Set()), parts = new Set(state.places.map(place => run.rows[place - 1].space));
  for (const it of run.arrows) if (isShown(it.start) && isShown(it.end)) parts.add(it.from).add(it.to);
  for (const bar of state.bars) used[bar.space].add(bar.lane);
  state.lanes = used.map(it => new Map([...it].sort((a, b) => a - b).map((lane, i) => [lane, i])));
  state.column = 470 + 7 * Math.max(0, (all > 0 ? String(numberOf(all)).length : 0) - 4);
  let x = state.column + 30;
  state.columns = state.lanes.map((lanes, space) => {
    const it = { x, more: Math.max(0, 11 * lanes.size - 36), space, isThere: space > 0 && (!life || parts.has(space) || lanes.size > 0) };
    if (it.isThere) x += COLUMN + it.more;
    return it;
  });
  state.width = x - 150;
  say();
  resize();
  find();
}

// Says which rows are shown.
function say() {
  const all = counted(run.rows.length, 'row'), how = state.life ? [`the life of ${state.life}`] : [];
  for (const [name, word] of Object.entries(state.filters)) if (word !== 'shown') how.push(word === 'alone' ? `${name} alone` : `without ${name}`);
  part('shown').textContent = how.length === 0 ? `all ${all}` : `showing ${figure(state.places.length)} of ${all}: ${how.join(', ')}`;
  part('shown').className = how.length === 0 ? '' : 'part';
  part('all').hidden = how.length === 0;
}

// What is searched of a row, made when it is first wanted.
const searched = row => row.searched || (row.searched = (row.text + textsIn(row.text) + row.gloss).toLowerCase());

// Looks among the rows shown for what is typed: words in a row's text, a reference, or a row's number.
function find() {
  const wanted = part('find').value.trim().toLowerCase(), life = /^\d+\.\d+$/.test(wanted) ? lifeOf(wanted) : null;
  const isFound = life ? place => life.has(place) : /^#\d+$/.test(wanted) ? place => `#${numberOf(place)}` === wanted
    : place => searched(run.rows[place - 1]).includes(wanted);
  state.hits = wanted ? state.places.filter(isFound) : [];
  state.isHit = new Set(state.hits);
  state.current = -1;
  part('hits').textContent = wanted ? counted(state.hits.length, 'hit') : '';
  survey();
  drawAnew();
}

// Goes to the next hit, or to the one before.
function step(steps) {
  const n = state.hits.length, next = state.hits.findIndex(place => place >= placeAtTop());
  if (n === 0) return;
  const from = state.current >= 0 ? state.current : (next < 0 ? n : next) - (steps > 0 ? 1 : 0);
  state.current = (from + steps + n) % n;
  part('hits').textContent = `${figure(state.current + 1)} of ${counted(n, 'hit')}`;
  show(state.hits[state.current]);
}

// Brings a row into the middle of what is in view, and its point into view, and spells it out.
function show(place) {
  const x = state.columns[run.rows[place - 1].space].x * state.zoom, left = view.scrollLeft;
  state.chosen = place;
  view.scrollTop = state.at[place] * scale() - view.clientHeight / 2;
  if (x < left + state.column * state.zoom || x > left + view.clientWidth - 20) view.scrollLeft = x - 0.7 * view.clientWidth;
  drawAnew();
  tell({ row: place });
}

// ---- drawing what is in view

function make(name, attributes, ...words) {
  const element = document.createElementNS(SVG, name);
  for (const key in attributes) element.setAttribute(key, attributes[key]);
  element.append(...words);
  return element;
}

// A text in parts, of which those that are references can be clicked.
function withRefs(text, space) {
  const parts = [];
  let from = 0;
  for (const it of namesIn(text, space)) {
    parts.push(text.slice(from, it.at), make('tspan', { class: 'ref', 'data-ref': it.ref }, it.words));
    from = it.at + it.words.length;
  }
  return [...parts, text.slice(from)];
}

// The part of a line that lies between two heights, and whether its end does.
function clipped(x1, y1, x2, y2, top, bottom) {
  const inside = y => Math.min(Math.max(y, top), bottom), at = y => y1 === y2 ? x2 : x1 + (x2 - x1) * (y - y1) / (y2 - y1);
  const start = inside(y1), end = inside(y2);
  return { x1: start === y1 ? x1 : at(start), y1: start, x2: end === y2 ? x2 : at(end), y2: end, ends: end === y2 };
}

// A point on the lifeline of a space at a row: a square, hollow where it was refused, turned where a session closes.
function dot(kind, x, y) {
  if (kind === 'closing') return make('path', { class: 'dot closing', d: `M${x},${y - 6} l6,6 l-6,6 l-6,-6 z` });
  const size = kind === 'fault' ? 12 : 6;
  return make('rect', { class: `dot ${kind}`, x: x - size / 2, y: y - size / 2, width: size, height: size });
}

function resize() {
  part('sheet').style.width = `${state.width * state.zoom}px`;
  part('sheet').style.height = `${(state.places.length + 2) * scale()}px`;
  const names = make('svg', { width: state.width * state.zoom, height: 24 }), corner = document.createElement('b');
  for (const it of state.columns) if (it.isThere) names.append(make('text', { class: 'name', x: it.x * state.zoom, y: 17 }, `space ${it.space}`));
  corner.style.width = `${Math.max(0, (state.column + 30) * state.zoom - 40)}px`;
  corner.textContent = 'row, space, what it was asked = what it answered';
  part('names').replaceChildren(names, corner);
}

const drawAnew = () => { state.drawn = null; draw(); };

function draw() {
  const count = state.places.length, height = view.clientHeight, scrolled = Math.min(view.scrollTop, count * scale());
  const first = Math.max(1, Math.floor(scrolled / scale())), last = Math.min(count, Math.ceil((scrolled + height) / scale()));
  part('names').firstChild.style.left = `${-view.scrollLeft}px`;
  mark(first, last);
  if (state.drawn && state.drawn[0] <= first && last <= state.drawn[1]) return;
  const from = Math.max(1, first - OVER), to = Math.min(count, last + OVER);
  state.drawn = [from, to];

  const top = from - 1, high = (to - from + 3) * ROW, wide = Math.max(state.width, view.clientWidth / state.zoom);
  const y = place => (state.at[place] - top) * ROW, columns = state.columns;
  const x = space => columns[Math.floor(space)].x + (columns[Math.ceil(space)].x - columns[Math.floor(space)].x) * (space % 1); // between two, where an arrow is cut
  const size = across => ({ width: across * state.zoom, height: high * state.zoom, viewBox: `0 0 ${across} ${high}`, style: `top: ${top * scale()}px` });
  const texts = make('svg', size(state.column)), shift = state.column - 470;
  for (const [key, value] of Object.entries(size(wide))) picture.setAttribute(key, value);
  const layers = { bands: [], lives: [], bars: [], lines: [], dots: [], words: [], touch: [] };
  const isNear = it => state.at[it.start] <= to + 1 && from - 1 <= state.at[it.end === undefined ? it.start : it.end];
  const isHere = place => from <= state.at[place] && state.at[place] <= to;

  for (const place of state.places.slice(from - 1, to)) {
    const row = run.rows[place - 1], at = y(place), read = row.gloss.slice(1) || textsIn(row.text).slice(1), room = LONGEST - row.text.length - 1;
    const looks = ['band', state.isHit.has(place) && 'hit', place === state.chosen && 'chosen', row.kind === 'fault' && 'wrong'].filter(it => it).join(' ');
    const band = across => make('rect', { class: looks, x: 0, y: at - ROW / 2, width: across, height: ROW, 'data-row': place });
    const text = make('text', { class: row.kind, x: 44 + shift, y: at + 4 }, ...withRefs(row.text, row.space));
    if (read && room > 5) text.append(make('tspan', { class: 'as-text' }, ` ${read.length > room ? `${read.slice(0, room - 3)}.."` : read}`));
    texts.append(make('g', { 'data-row': place }, band(state.column), make('text', { class: 'number', x: 36 + shift, y: at + 4 }, numberOf(place)), text));
    layers.bands.push(band(wide));
    layers.lives.push(make('line', { class: 'guide', x1: state.column, y1: at, x2: x(row.space), y2: at }));
    layers.dots.push(dot(row.kind, x(row.space), at));
  }
  for (const it of state.columns) if (it.isThere) layers.lives.push(make('line', { class: 'life', x1: it.x, y1: 0, x2: it.x, y2: high - ROW }));
  for (const bar of state.bars) if (isNear(bar)) drawBar(layers.bars, bar, y, top, high);
  const boxes = [];
  for (const it of run.arrows) {
    if (!isNear(it) || !isShown(it.start) || !isShown(it.end)) continue;
    const { ends, ...line } = clipped(x(it.from), y(it.start), x(it.to), y(it.end), 0, high), passes = !isHere(it.start) && !isHere(it.end);
    const head = ends && it.end <= run.rows.length ? { 'marker-end': it.style.includes('took-nothing') ? 'url(#grey)' : 'url(#head)' } : {};
    layers.lines.push(make('line', { class: it.style + (passes ? ' passing' : ''), 'data-of': `arrow${it.number}`, ...line, ...head }));
    if (passes) continue;
    layers.touch.push(make('line', { class: 'touch', 'data-arrow': it.number, ...line }));
    if (!isHere(it.end)) continue;
    const place = it.before ? x(it.to) - 10 : x(it.to) + 50 + columns[it.to].more;
    write(layers.words, boxes, it.words, it.before, place, [y(it.end) + 9], { 'data-of': `arrow${it.number}`, 'data-arrow': it.number });
  }
  for (const it of run.lost) {
    if (!isNear(it) || !isShown(it.start)) continue;
    const end = it.right ? x(it.from) + columns[it.from].more + 48 : x(it.from) - 40, down = y(it.start) + it.down;
    const line = { x1: x(it.from), y1: y(it.start), x2: end, y2: down }, of = { 'data-of': `lost${it.number}` };
    layers.lines.push(make('line', { class: it.style, ...of, ...line }), make('path', { class: 'cross', d: `M${end - 4},${down - 4} l8,8 m0,-8 l-8,8` }));
    layers.touch.push(make('line', { class: 'touch', 'data-lost': it.number, ...line }));
    write(layers.words, boxes, it.words, !it.right, it.right ? end + 10 : end - 8, [4, 10, -2, 16].map(more => down + more), { ...of, 'data-lost': it.number });
  }
  for (const it of run.strays) {
    if (!isShown(it.end) || !isHere(it.end)) continue;
    const end = x(it.to), start = it.left ? end - 40 : end + 40 + columns[it.to].more, at = y(it.end), of = { 'data-of': `stray${it.number}` };
    layers.lines.push(make('line', { class: 'sent stray', ...of, x1: start, y1: at, x2: end, y2: at, 'marker-end': 'url(#red)' }),
      make('path', { class: 'cross', d: `M${start},${at - 5} l0,10` }));
    write(layers.words, boxes, it.words, it.left, it.left ? start - 8 : start + 8, [at + 4], { ...of, 'data-row': it.end });
  }
  picture.replaceChildren(...Object.values(layers).flat());
  part('texts').replaceChildren(texts);
  lightUp();
}

// A bar in its lane, with its words at its head and again below, in each screenful, as far as there is room for them.
function drawBar(layer, bar, y, top, high) {
  const x = state.columns[bar.space].x + 8 + 11 * state.lanes[bar.space].get(bar.lane), start = y(bar.start), end = y(bar.end);
  const from = Math.max(start, 0), to = Math.min(end, high), of = { 'data-bar': bar.number };
  if (from >= to) return;
  layer.push(make('rect', { class: `bar ${bar.style}`, fill: `url(#of-${bar.style})`, x, y: from, width: 9, height: to - from, ...of }));
  const words = [bar.words, bar.ref].find(it => 5.2 * it.length + 4 <= end - start);
  if (!words) return;
  const size = 5.2 * words.length + 4, every = 12 * ROW;
  const label = at => layer.push(make('rect', { class: `bar under ${bar.style}`, x, y: at, width: 9, height: size, ...of }),
    make('text', { class: 'held', transform: `translate(${x + 2} ${at + 2}) rotate(90)`, ...of }, words));
  if (start + size > 0) label(start);
  for (let at = Math.ceil((Math.max(start + size + 40, -size) + top * ROW) / every) * every - top * ROW; at + size < end && at < high; at += every) label(at);
}

// Writes words where none lie that were written before; where there is no such place they are told to who points at the line.
function write(layer, boxes, words, before, x, heights, of) {
  const across = 6.7 * words.length, left = before ? x - across : x;
  const y = heights.find(at => !boxes.some(it => left < it.right && it.left < left + across && Math.abs(at - it.y) < 11));
  if (y === undefined) return;
  boxes.push({ left, right: left + across, y });
  layer.push(make('rect', { class: 'paper', x: left, y: y - 9, width: across, height: 11 }), make('text', { class: before ? 'words before' : 'words', x, y, ...of }, ...withRefs(words, 0)));
}

// Where the run is refused, closed and wrong, and where hits are: bits for each point of the strip at the right.
function survey() {
  const high = Math.max(1, part('middle').clientHeight), bits = { refused: 1, closing: 2, fault: 8 };
  marks = new Uint8Array(high);
  state.places.forEach((place, i) => {
    marks[Math.floor(i * high / state.places.length)] |= (bits[run.rows[place - 1].kind] || 0) | (state.isHit.has(place) ? 4 : 0);
  });
}

// Draws that strip, and which part of it is in view.
function mark(first, last) {
  const high = marks.length, each = high / Math.max(1, state.places.length), pen = overview.getContext('2d');
  overview.height = high;
  pen.fillStyle = '#ddd';
  pen.fillRect(0, (first - 1) * each, 22, Math.max(4, (last - first + 1) * each));
  for (const [bit, colour, x, across, more] of [[1, '#c98a3c', 2, 5, 0], [2, '#8000a0', 8, 6, 1], [4, '#1c4f9c', 15, 6, 1], [8, '#d00000', 0, 22, 2]]) {
    pen.fillStyle = colour;
    marks.forEach((bits, y) => { if (bits & bit) pen.fillRect(x, y - more, across, 1 + 2 * more); });
  }
}

// ---- what is pointed at

const LISTS = { arrow: 'arrows', lost: 'lost', bar: 'bars' };

// Lights up what is pointed at and what is held: of an arrow or a bar, both its ends too.
function lightUp() {
  document.querySelectorAll('.lit').forEach(it => it.classList.remove('lit'));
  for (const lit of [state.pointed, state.held]) {
    if (!lit) continue;
    const [[name, number]] = Object.entries(lit), it = name === 'row' ? { start: number } : run[LISTS[name]][number];
    const wanted = [`[data-of="${name}${number}"]`, ...[it.start, it.end].map(place => `.band[data-row="${place}"]`)];
    document.querySelectorAll(wanted.join()).forEach(found => found.classList.add('lit'));
  }
}

function pointedAt(event) {
  const element = event.target.closest('[data-arrow],[data-lost],[data-bar],[data-row]');
  const name = element && ['arrow', 'lost', 'bar', 'row'].find(it => it in element.dataset);
  return name ? { [name]: Number(element.dataset[name]) } : null;
}

const link = (words, hash) => Object.assign(document.createElement('a'), { href: hash, textContent: words });
const isInside = place => place >= 1 && place <= run.rows.length;
const endOf = (place, by, space) => isInside(place) ? [`${by} space ${space} in `, rowLink(place)] : ['outside of this drawing'];
function rowLink(place, otherwise) {
  if (!isInside(place)) return otherwise;
  return link(`row ${figure(numberOf(place))}`, `#${state.life ? `life=${state.life}&` : ''}row=${numberOf(place)}`);
}

// Spells out at the foot of the page what is pointed at.
function tell(lit) {
  if (!lit) return;
  const lines = [], it = lit.row ? run.rows[lit.row - 1] : run[LISTS[Object.keys(lit)[0]]][Object.values(lit)[0]];
  if (lit.row) {
    lines.push([`${numberOf(lit.row)}  ${withTexts(it.text)}`]);
    lines.push([it.kind === 'fault' ? 'This is where the run is wrong, and nobj check says why. ' : '', withTexts(spelt(it)),
      isCut(it.text) ? ' (The text of this row is cut short.)' : '']);
    const came = run.arrows.filter(arrow => arrow.end === lit.row).map(arrow => ['The frame was given ', ...endOf(arrow.start, 'by', arrow.from), '. ']);
    const gave = run.arrows.filter(arrow => arrow.start === lit.row).map(arrow => [`${arrow.words || 'A frame'} arrives `, ...endOf(arrow.end, 'at', arrow.to), '. ']);
    lines.push([...came, ...gave, ...run.lost.filter(lost => lost.start === lit.row).map(lost => `${lost.words} never arrives. `)].flat());
  } else if (lit.bar === undefined) {
    lines.push([withTexts(it.words || 'a frame')]);
    lines.push([it.words && `This is ${withTexts(sentence(FRAMES, it.words))}. `, 'Given ', ...endOf(it.start, 'by', it.from), ...lit.lost === undefined ? [', arrives ', ...endOf(it.end, 'at', it.to)] : [', never arrives'],
      it.style.includes('again') ? '; its item was given before' : '', it.style.includes('took-nothing') ? '; it took nothing when it came' : '', '.']);
  } else {
    const whose = it.words.split(' ').pop();
    const holds = { live: `The object ${it.ref} is live`, listed: `Space ${whose} is listed for the object ${it.ref}`, pinned: `Space ${it.space} keeps ${it.ref} pinned for space ${whose}` };
    lines.push([it.words], [`${holds[it.style]}, after `, rowLink(it.start, 'a row above'), ' and until ', rowLink(it.end, 'a row below, or for good'), '. ', link(`Its life alone`, `#life=${it.ref}`)]);
  }
  part('told').replaceChildren(...lines.map((parts, i) => {
    const paragraph = Object.assign(document.createElement('p'), { className: i === 0 ? 'said' : 'means' });
    paragraph.append(...parts);
    return paragraph;
  }));
}

// ---- what is asked

// Does what the address asks for behind `#`: a life, a row.
function obey() {
  const asked = new URLSearchParams(location.hash.slice(1)), place = run.rows.findIndex(row => row.row === Number(asked.get('row'))) + 1;
  const life = /^\d+\.\d+$/.test(asked.get('life')) ? asked.get('life') : null, isNew = life !== state.life;
  if (isNew) change(() => { state.life = life; });
  if (isNew && life) view.scrollTop = 0;
  if (!(place >= 1 && place <= run.rows.length)) return;
  if (!isShown(place)) change(showAll);
  show(place);
}

// Changes what is shown, and keeps the row that is uppermost, or what is left about it.
function change(how) {
  const before = placeAtTop();
  state.held = state.pointed = null;
  how();
  choose();
  view.scrollTop = (state.at[before] - 1) * scale();
  drawAnew();
}

function showAll() {
  state.life = null;
  state.filters = {};
  document.querySelectorAll('#filters select').forEach(it => { it.value = 'shown'; });
}

function zoomTo(zoom) {
  const middle = (view.scrollTop + view.clientHeight / 2) / scale();
  state.zoom = Math.min(3, Math.max(0.2, zoom));
  part('zoom').textContent = `${Math.round(state.zoom * 100)} %`;
  resize();
  view.scrollTop = middle * scale() - view.clientHeight / 2;
  drawAnew();
}

function title(of, wrong) {
  const what = run.shown || counted(run.rows.length, 'entry', 'entries');
  part('title').textContent = document.title = `${of.name ? `${of.name}: ` : ''}a run of ${counted(run.spaces, 'space')}, ${what}`;
  const isAccepted = wrong === 0 && of.status === '0';
  part('verdict').className = isAccepted ? '' : 'no';
  part('verdict').append(...isAccepted ? ['accepted: together these are a run of a world']
    : wrong > 0 ? ['not accepted: it goes wrong in ', rowLink(wrong)] : ['not accepted, and what is wrong is outside of these rows']);
}

function listen() {
  const on = (id, event, what) => part(id).addEventListener(event, what);
  for (const filter of Object.keys(FILTERS)) {
    const label = document.createElement('label'), select = document.createElement('select');
    select.append(...['shown', 'hidden', 'alone'].map(word => new Option(word)));
    select.id = `filter-${filter.replace(' ', '-')}`;
    select.addEventListener('change', () => change(() => { state.filters[filter] = select.value; }));
    label.append(`${filter} `, select);
    part('filters').append(label, ' ');
  }
  let waits = false;
  on('view', 'scroll', () => {
    if (!waits) requestAnimationFrame(() => { waits = false; draw(); });
    waits = true;
  });
  new ResizeObserver(() => { survey(); drawAnew(); }).observe(view);
  on('view', 'pointerover', event => {
    state.pointed = pointedAt(event);
    lightUp();
    if (!state.held) tell(state.pointed);
  });
  on('view', 'pointerleave', () => { state.pointed = null; lightUp(); });
  on('view', 'click', event => {
    const ref = event.target.closest('[data-ref]'), it = pointedAt(event);
    if (ref) location.hash = `life=${ref.dataset.ref}`;
    else if (it && it.bar !== undefined) location.hash = `life=${run.bars[it.bar].ref}`;
    else {
      state.held = JSON.stringify(it) === JSON.stringify(state.held) ? null : it;
      lightUp();
      tell(it);
    }
  });
  on('view', 'wheel', event => {
    if (!event.ctrlKey) return;
    event.preventDefault();
    zoomTo(state.zoom * (event.deltaY < 0 ? 1.1 : 1 / 1.1));
  });
  on('overview', 'click', event => { view.scrollTop = event.offsetY / marks.length * state.places.length * scale() - view.clientHeight / 2; });
  on('find', 'input', find);
  on('find', 'keydown', event => { if (event.key === 'Enter') step(event.shiftKey ? -1 : 1); });
  on('on', 'click', () => step(1));
  on('back', 'click', () => step(-1));
  on('larger', 'click', () => zoomTo(state.zoom * 1.25));
  on('smaller', 'click', () => zoomTo(state.zoom / 1.25));
  on('all', 'click', () => { change(showAll); location.hash = ''; });
  window.addEventListener('hashchange', obey);
  document.addEventListener('click', event => { if (event.target.hash && event.target.hash === location.hash) obey(); });
}

function start() {
  try {
    run = read(part('drawing').content.textContent);
  } catch (fault) {
    part('shown').textContent = `This page can't read its drawing: ${fault.message}`;
    throw fault;
  }
  part('drawing').remove();
  choose();
  listen();
  const wrong = run.rows.findIndex(it => it.kind === 'fault') + 1;
  title(part('of').dataset, wrong);
  if (wrong > 0 && !location.hash) show(wrong);
  obey();
}

start();
