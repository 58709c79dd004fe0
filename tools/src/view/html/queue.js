// The queue drawn: boxes from left to right, both links between them, Anchor above with its ends as
// pointers, and below it the slots that calls hold.
const BOX = { width: 118, height: 92, gap: 74, top: 122, margin: 64 };
const MOST_BOXES = 60;

function arrowheads(id) {
  const head = (name, colour) => make('marker', {
    id: id + name, viewBox: '0 0 8 8', refX: 7, refY: 4, markerWidth: 11, markerHeight: 11, markerUnits: 'userSpaceOnUse',
    orient: 'auto-start-reverse', style: `fill: ${colour}`,
  }, make('path', { d: 'M0 0 L8 4 L0 8 z' }));
  return make('defs', {}, head('link', 'var(--link)'), head('end', 'var(--ink)'), head('unmade', 'var(--unmade)'), head('changed', 'var(--changed)'));
}

// What of a slot's row is other than before this touch.
function changes(state, before, slot) {
  const now = state.rows[slot];
  const old = before && before.rows[slot];
  const other = (key) => Boolean(old) && old[key] !== now[key];
  return { label: other('label') || other('taken'), left: other('left') || other('leftTag'), right: other('right') || other('rightTag') };
}

function box(state, before, slot, x, y, caption) {
  const row = state.rows[slot];
  const changed = changes(state, before, slot);
  const line = (text, at, kind) => make('text', { x: x + BOX.width / 2, y: y + at, 'text-anchor': 'middle', class: kind }, text);
  const name = (slot, tag) => `${slot ? 'slot ' + slot : 'null'} · tag ${tag}`;
  const group = make('g', { class: 'box' + (caption ? ' held' : '') + (changed.label ? ' changed' : ''), 'data-slot': slot, 'data-label': row.label },
    make('rect', { x, y, width: BOX.width, height: BOX.height, rx: 8 }),
    line('slot ' + slot, 15, 'soft'),
    line(row.label, 40, 'label' + (changed.label ? ' changed' : '')),
    line('Left ' + name(row.left, row.leftTag), 61, 'soft' + (changed.left ? ' changed' : '')),
    line('Right ' + name(row.right, row.rightTag), 77, 'soft' + (changed.right ? ' changed' : '')));
  if (caption) group.append(line(caption, BOX.height + 15, 'soft'));
  return group;
}

// Between two neighbours: the Right link of the first above, the Left link of the second below.
function links(id, state, before, first, second, x) {
  const [from, to] = [x + BOX.width + 4, x + BOX.width + BOX.gap - 4];
  const arrow = (names, wanted, changed, y, start, end) => {
    const kind = names === wanted ? (changed ? 'changed' : 'link') : 'unmade';
    const line = make('path', {
      d: `M${start} ${y} L${end} ${y}`, class: kind === 'link' ? 'link' : 'link ' + kind, 'marker-end': `url(#${id}${kind})`,
      'data-from': start < end ? first : second, 'data-to': wanted,
    });
    const told = make('text', { x: (from + to) / 2, y: y - 6, 'text-anchor': 'middle', class: 'unmade' }, kind === 'unmade' ? 'not made' : '');
    return [line, told];
  };
  const y = BOX.top + 32;
  return make('g', {},
    ...arrow(state.rows[first].right, second, changes(state, before, first).right, y, from, to),
    ...arrow(state.rows[second].left, first, changes(state, before, second).left, y + 30, to, from));
}

// The boxes that are shown: of a long queue both ends, with how many are left out between them.
function shownEntries(queue) {
  if (queue.length <= MOST_BOXES) return queue;
  const half = MOST_BOXES / 2;
  return [...queue.slice(0, half), { leftOut: queue.length - MOST_BOXES }, ...queue.slice(-half)];
}

function anchorBox(id, state, before, middle, positions) {
  const anchor = state.anchor;
  const changed = before && before.anchor.word !== anchor.word;
  const old = before ? before.anchor : anchor;
  const top = { x: middle - 132, y: 8, width: 264, height: 46 };
  const group = make('g', { class: 'anchor' + (changed ? ' changed' : '') },
    make('rect', { ...top, rx: 8 }),
    make('text', { x: middle, y: 27, 'text-anchor': 'middle' }, `Anchor · tag ${anchor.tag} · ${anchor.status}`),
    make('text', { x: middle, y: 44, 'text-anchor': 'middle', class: 'soft' }, anchor.word));
  const pointer = (side, slot, was) => {
    const start = side === 'left' ? top.x + 30 : top.x + top.width - 30;
    const target = positions.get(slot);
    const same = anchor.left === anchor.right;
    const shift = same ? (side === 'left' ? -18 : 18) : 0;
    const end = target === undefined ? start : target + BOX.width / 2 + shift;
    const stop = target === undefined ? 84 : BOX.top - 4;
    const moved = before && was !== slot;
    group.append(make('path', {
      d: `M${start} 54 C${start} 84 ${end} 84 ${end} ${stop}`, class: 'end ' + side + (moved ? ' changed' : ''), 'data-slot': slot,
      'marker-end': `url(#${id}${moved ? 'changed' : 'end'})`,
    }));
    const text = side + ' end' + (target === undefined ? ': ' + (slot ? 'slot ' + slot : 'null') : '');
    const to = side === 'left' ? { x: end - 8, 'text-anchor': 'end' } : { x: end + 8, 'text-anchor': 'start' };
    group.append(make('text', { ...to, y: target === undefined ? 98 : 108, class: 'soft' + (moved ? ' changed' : '') }, text));
  };
  pointer('left', anchor.left, old.left);
  pointer('right', anchor.right, old.right);
  return group;
}

// Slots that no label waits in and a call holds: its own, or the end that a pop has taken.
function heldSlots(state) {
  const waiting = new Set((state.queue.broken ? brokenEntries(state) : state.queue).map((entry) => entry.slot));
  const held = [];
  for (const row of state.rows) {
    if (!row || !row.taken || waiting.has(row.slot)) continue;
    const holder = state.records.find((record) => record.place !== 0 && record.own === row.slot);
    const popper = state.records.find((record) => record.place === 11 && taken(record) === row.slot);
    const one = holder || popper;
    held.push({ slot: row.slot, caption: one ? `held by ${run.names[one.task]}` : 'taken' });
  }
  return held.slice(0, MOST_BOXES);
}

function taken(record) {
  return record.side === 0 ? record.seen[2] : record.seen[3];
}

// Where the walk from end to end is broken, as in a wrong queue: as far as it goes, and the other end.
function brokenEntries(state) {
  const { left, right, status } = state.anchor;
  const [start, other, along] = status === 'LPUSH' ? [left, right, 'right'] : [right, left, 'left'];
  const met = [];
  for (let slot = start; slot && !met.includes(slot) && met.length < 6; slot = state.rows[slot][along]) met.push(slot);
  const walk = met.map((slot) => ({ slot }));
  const rest = met.includes(other) || !other ? [{ broken: true }] : [{ broken: true }, { slot: other }];
  return along === 'right' ? [...walk, ...rest] : [...rest.reverse(), ...walk.reverse()];
}

function drawQueue(id, state, before) {
  const entries = state.queue.broken ? brokenEntries(state) : shownEntries(state.queue);
  const held = heldSlots(state);
  const wide = Math.max(entries.length, held.length, 3);
  const width = 2 * BOX.margin + wide * BOX.width + (wide - 1) * BOX.gap;
  const height = BOX.top + BOX.height + (held.length ? BOX.height + 62 : 20);
  const svg = make('svg', { viewBox: `0 0 ${width} ${height}`, width, height, role: 'img', 'aria-label': 'the queue: ' + chain(state.queue) }, arrowheads(id));
  if (wide <= 8) svg.setAttribute('style', 'max-width: 100%; height: auto');
  const start = (width - (entries.length * BOX.width + Math.max(entries.length - 1, 0) * BOX.gap)) / 2;
  const positions = new Map();
  entries.forEach((entry, at) => {
    const x = start + at * (BOX.width + BOX.gap);
    if (!entry.slot) {
      const [said, kind] = entry.broken ? ['broken', 'unmade'] : [`${entry.leftOut} more`, ''];
      svg.append(make('text', { x: x + BOX.width / 2, y: BOX.top + 50, 'text-anchor': 'middle', class: kind }, said));
      return;
    }
    positions.set(entry.slot, x);
    svg.append(box(state, before, entry.slot, x, BOX.top));
    const next = entries[at + 1];
    if (next && next.slot) svg.append(links(id, state, before, entry.slot, next.slot, x));
  });
  if (entries.length === 0) {
    svg.append(make('text', { x: width / 2, y: BOX.top + 40, 'text-anchor': 'middle', class: 'soft' }, 'no label waits'));
  }
  svg.append(anchorBox(id, state, before, Math.min(width / 2, 560), positions));
  const below = BOX.top + BOX.height + 34;
  const from = (width - (held.length * BOX.width + Math.max(held.length - 1, 0) * BOX.gap)) / 2;
  held.forEach(({ slot, caption }, at) => svg.append(box(state, before, slot, from + at * (BOX.width + BOX.gap), below, caption)));
  return svg;
}
