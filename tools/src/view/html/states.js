// The run as it was written down, and the state after each touch: every word of the queue, of which a
// touch tells those that changed.
const run = JSON.parse(document.getElementById('run').textContent);

function statesOf(machine) {
  const states = [];
  let last = { rows: [], records: [], queue: [] };
  for (const touch of machine.touches) {
    const state = {
      touch,
      anchor: { tag: touch.anchor[0], status: touch.status, left: touch.anchor[2], right: touch.anchor[3], word: touch.word },
      head: { slot: touch.head[0], tag: touch.head[1] },
      rows: last.rows,
      records: last.records,
      queue: last.queue,
    };
    if (touch.rows) {
      state.rows = last.rows.slice();
      for (const [slot, label, left, leftTag, right, rightTag, taken, next] of touch.rows) {
        state.rows[slot] = { slot, label, left, leftTag, right, rightTag, taken: taken === 1, next };
      }
    }
    if (touch.records) {
      state.records = last.records.slice();
      for (const record of touch.records) state.records[record.task] = record;
    }
    if (touch.queue !== undefined) {
      state.queue = typeof touch.queue === 'string'
        ? { broken: touch.queue }
        : touch.queue.map(([slot, label, made]) => ({ slot, label, made: made === 1 }));
    }
    states.push(state);
    last = state;
  }
  return states;
}

const machines = run.machines.map((machine) => ({ ...machine, states: statesOf(machine) }));

// The labels from left to right, as the other forms write them.
function chain(queue) {
  if (queue.broken) return queue.broken;
  if (queue.length === 0) return 'empty';
  return queue.map((entry, at) => entry.label + (at + 1 === queue.length ? '' : entry.made ? ' - ' : ' ~ ')).join('');
}

// The free slots of a pool, from the top.
function pool(state) {
  const found = [];
  for (let slot = state.head.slot; slot !== 0 && found.length < state.rows.length; slot = state.rows[slot].next) found.push(slot);
  return found;
}

// An element with attributes and children; a text where a child is one.
function make(name, attributes, ...children) {
  const drawn = ['svg', 'g', 'rect', 'path', 'text', 'circle', 'line', 'defs', 'marker', 'title'].includes(name);
  const element = drawn ? document.createElementNS('http://www.w3.org/2000/svg', name) : document.createElement(name);
  for (const [key, value] of Object.entries(attributes || {})) element.setAttribute(key, value);
  element.append(...children.map((child) => (child instanceof Node ? child : String(child))));
  return element;
}
