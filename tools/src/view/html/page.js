// The page: what is shown at a touch, and how to get to another.
const first = machines[0];
const last = first.states.length - 1;
const slider = document.getElementById('slider');
let current = 0;

const STATUS = ['STABLE', 'RPUSH', 'LPUSH'];
const FIELDS = [
  ['own slot', (record) => (record.own ? 'slot ' + record.own : 'none')],
  ['label', (record) => record.label],
  ['Anchor as read', (record) => `${record.seen[2]}..${record.seen[3]} ${STATUS[record.seen[1]]} · tag ${record.seen[0]}`],
  ['neighbour', (record) => (record.neighbour ? 'slot ' + record.neighbour : 'null')],
  ['link as read', (record) => `${record.link[0] ? 'slot ' + record.link[0] : 'null'} · tag ${record.link[1]}`],
  ['finishing', (record) => (record.finishing ? 'yes' : 'no')],
];

function card(record, old, touched) {
  const fields = record.place === 0 ? [] : FIELDS;
  const list = [...fields, ['retries', (one) => one.retries]].flatMap(([name, value]) => [
    make('dt', {}, name),
    make('dd', { class: old && value(old) !== value(record) ? 'changed' : '' }, value(record)),
  ]);
  const standing = make('span', { class: 'standing' }, record.standing);
  return make('div', { class: 'task' + (touched ? ' touched' : '') + (record.place === 0 ? ' idle' : '') },
    make('h3', {}, run.names[record.task], standing), make('dl', {}, ...list));
}

const BADGES = { effect: 'takes effect', refused: 'refused', failed: 'failed', plain: '' };

function freeSlots(machine, state, before) {
  const old = before ? new Set(before.rows.filter((row) => row && !row.taken).map((row) => row.slot)) : null;
  const slots = machine.pooled ? pool(state) : state.rows.filter((row) => row && !row.taken).map((row) => row.slot);
  const shown = slots.slice(0, 40).map((slot) => make('b', { class: old && !old.has(slot) ? 'changed' : '' }, slot));
  const words = machine.pooled ? `in the pool from the top (tag ${state.head.tag}): ` : 'free slots: ';
  const line = make('p', { class: 'free' }, words);
  shown.forEach((one, at) => line.append(at ? (machine.pooled ? ' → ' : ', ') : '', one));
  if (slots.length === 0) line.append('none');
  if (slots.length > 40) line.append(` and ${slots.length - 40} more`);
  return line;
}

function section(machine, at) {
  const frame = make('section', { class: 'machine' + (machine.product ? '' : ' wrong') });
  const parts = { what: make('p', {}), queue: make('div', { class: 'scroll drawing' }), free: make('div', {}), tasks: make('div', { class: 'tasks' }) };
  const line = drawTimeline(machine);
  const sums = make('div', { class: 'sums' }, ...machine.sums.map((text) => make('div', { class: text.startsWith('LABELS') ? 'bad' : '' }, text)));
  const heading = machines.length > 1 || !machine.product ? [make('h2', {}, machine.title)] : [];
  frame.append(...heading, parts.what, parts.queue, parts.free, parts.tasks,
    make('h2', {}, 'Calls from start to answer, and where they take effect'), make('div', { class: 'scroll' }, line.svg), sums);
  line.svg.addEventListener('click', (event) => show(line.eventAt(event.clientX) - first.touches[0].event));
  return { machine, frame, parts, line, id: 'm' + at };
}

function fill(part) {
  const states = part.machine.states;
  const [state, before] = [states[current], states[current - 1]];
  const touch = state.touch;
  const who = touch.task === null ? '' : run.names[touch.task] || 'task ' + touch.task;
  part.parts.what.className = 'what ' + touch.kind;
  part.parts.what.replaceChildren(make('span', { class: 'who' }, who), make('span', { class: 'did' }, touch.what),
    make('span', { class: 'badge' }, BADGES[touch.kind]), make('span', { class: 'at' }, touch.at));
  part.parts.queue.replaceChildren(drawQueue(part.id, state, before));
  part.parts.free.replaceChildren(freeSlots(part.machine, state, before));
  part.parts.tasks.replaceChildren(...state.records.map((record) => card(record, before && before.records[record.task], touch.task === record.task)));
  part.line.place(touch.event);
}

// The queue as text, with the link that is not made yet brought out.
function chainCell(state, kind) {
  const parts = chain(state.queue).split('~');
  const cell = make('td', { class: 'queue' + kind });
  parts.forEach((part, at) => cell.append(...(at ? [make('span', { class: 'tilde' }, '~')] : []), part));
  return cell;
}

function tableRow(at) {
  const state = first.states[at];
  const touch = state.touch;
  const who = touch.task === null ? '-' : run.names[touch.task] || touch.task;
  const row = make('tr', { class: touch.kind, 'data-at': at }, make('td', {}, touch.event), make('td', {}, who), make('td', { class: 'did' }, touch.what),
    ...state.records.map((record) => make('td', { class: 'cell' + (record.place ? '' : ' idle') }, record.standing)), chainCell(state, ''));
  for (const other of machines.slice(1)) {
    const theirs = other.states[at];
    const differs = theirs.touch.what !== touch.what || chain(theirs.queue) !== chain(state.queue);
    if (differs) row.classList.add('differs');
    row.append(make('td', { class: 'did wrong' }, theirs.touch.what), chainCell(theirs, ' wrong'));
  }
  row.addEventListener('click', () => show(at));
  return row;
}

function fillTable() {
  const others = machines.slice(1).flatMap(() => ['not the product: what it did', 'not the product: waiting']);
  const heads = ['touch', 'task', 'what it did', ...run.names, 'waiting, left to right', ...others];
  document.querySelector('#table thead').append(make('tr', {}, ...heads.map((text) => make('th', {}, text))));
  document.querySelector('#table tbody').append(...first.states.map((_, at) => tableRow(at)));
}

function show(wanted) {
  current = Math.min(Math.max(wanted, 0), last);
  slider.value = current;
  const touch = first.touches[current];
  document.getElementById('counter').textContent = `touch ${touch.event} of ${first.touches[last].event}`;
  sections.forEach(fill);
  for (const row of document.querySelectorAll('tr.now')) row.classList.remove('now');
  const row = document.querySelector(`tr[data-at="${current}"]`);
  row.classList.add('now');
  const box = document.querySelector('#all .scroll');
  if (row.offsetTop < box.scrollTop + 30 || row.offsetTop + 30 > box.scrollTop + box.clientHeight) box.scrollTop = row.offsetTop - box.clientHeight / 2;
}

const STEPS = { ArrowRight: 1, ArrowLeft: -1, PageDown: 10, PageUp: -10, Home: -Infinity, End: Infinity };

function theme() {
  const dark = window.matchMedia('(prefers-color-scheme: dark)');
  const root = document.documentElement;
  const set = (on) => { root.dataset.theme = on ? 'dark' : 'light'; };
  set(dark.matches);
  dark.addEventListener('change', () => set(dark.matches));
  document.getElementById('theme').addEventListener('click', () => set(root.dataset.theme !== 'dark'));
  window.addEventListener('beforeprint', () => set(false));
}

const sections = machines.map(section);
document.getElementById('machines').append(...sections.map((part) => part.frame));
document.getElementById('machines').classList.toggle('two', machines.length > 1);
const slots = `${first.slots} slots${first.pooled ? ' in a pool' : ''}`;
const touches = `touches ${first.touches[0].event} to ${first.touches[last].event}`;
document.getElementById('about').textContent = `${run.names.length} tasks, ${slots}, ${touches}`;
slider.max = last;
fillTable();
theme();
slider.addEventListener('input', () => show(Number(slider.value)));
document.addEventListener('keydown', (event) => {
  if (!(event.key in STEPS) || event.ctrlKey || event.altKey || event.metaKey) return;
  event.preventDefault();
  show(Math.min(Math.max(current + STEPS[event.key], 0), last));
});
for (const [id, step] of [['first', -Infinity], ['back', -1], ['on', 1], ['last', Infinity]]) {
  document.getElementById(id).addEventListener('click', () => show(Math.min(Math.max(current + step, 0), last)));
}
// A page may be opened at a touch: page.html#8.
show(Math.max(Number(location.hash.slice(1)) - first.touches[0].event, 0) || 0);
