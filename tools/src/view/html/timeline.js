// Each call from its start to its answer, with its effect between them; below, the order of the effects:
// what a queue served by one clerk would have been asked.
const LINE = { names: 110, row: 34, top: 24, bar: 25 };

// Which calls are shown, and where each touch and each task that calls stands.
function measured(machine) {
  const [from, to] = [machine.touches[0].event, machine.touches[machine.touches.length - 1].event];
  const calls = machine.calls.filter((call) => (call.end === null || call.end >= from) && call.start <= to);
  const tasks = run.names.map((_, task) => task).filter((task) => calls.some((call) => call.task === task));
  const count = to - from + 1;
  const scale = Math.min(26, Math.max(7, (machines.length > 1 ? 480 : 1040) / count));
  return {
    from, to, calls, tasks, scale,
    x: (event) => LINE.names + (Math.min(Math.max(event, from - 0.5), to + 0.5) - from + 0.5) * scale,
    y: (task) => LINE.top + LINE.row * tasks.indexOf(task),
    bottom: LINE.top + LINE.row * tasks.length,
    width: LINE.names + count * scale + 20,
  };
}

function axis(line, name, y) {
  return [make('text', { x: 4, y: y + 4 }, name.length > 16 ? name.slice(0, 15) + '…' : name),
    make('line', { x1: LINE.names, x2: line.width - 16, y1: y, y2: y, class: 'axis' })];
}

function bar(line, call) {
  const y = line.y(call.task);
  const [left, right] = [line.x(call.start), line.x(call.end === null ? line.to + 0.5 : call.end)];
  const words = call.text + (call.told && call.told !== 'pushed' ? ' : ' + call.told.split(' from')[0] : '');
  const until = call.end === null ? 'the end, not answered' : call.end;
  return make('g', { class: 'call' },
    make('title', {}, `${run.names[call.task]}: ${call.text}, touches ${call.start} to ${until}`),
    make('rect', { x: left, y, width: Math.max(right - left, 4), height: LINE.bar, rx: 5, class: 'bar' + (call.end === null ? ' under-way' : '') }),
    make('text', { x: left + 5, y: y + 16, class: 'bar-text' }, fitting(words, right - left - 8)));
}

// As much of a text as finds room.
function fitting(text, room) {
  const letters = Math.floor(room / 6.2);
  return letters >= text.length ? text : letters < 3 ? '' : text.slice(0, letters - 1) + '…';
}

// A dot in the call's bar, and one in the order of all, with its number there.
function effect(line, call, at) {
  const [x, y, below] = [line.x(call.effect), line.y(call.task) + LINE.bar - 4, line.bottom + 14];
  return [make('line', { x1: x, x2: x, y1: y, y2: below, class: 'drop' }),
    make('circle', { cx: x, cy: y, r: 5, class: 'effect', 'data-event': call.effect }, make('title', {}, `effect of ${call.text}, touch ${call.effect}`)),
    make('circle', { cx: x, cy: below, r: 3.5, class: 'effect' }),
    make('text', { x, y: below + 18, class: 'ordinal' }, at + 1)];
}

function drawTimeline(machine) {
  const line = measured(machine);
  const height = line.bottom + 48;
  const size = { viewBox: `0 0 ${line.width} ${height}`, width: line.width, height };
  const svg = make('svg', { ...size, class: 'line', role: 'img', 'aria-label': 'calls and their effects' });
  const inside = (event) => event !== null && event >= line.from && event <= line.to;
  const effects = line.calls.filter((call) => inside(call.effect)).sort((one, other) => one.effect - other.effect);
  const now = make('line', { y1: 12, y2: line.bottom + 20, class: 'now' });
  svg.append(...line.tasks.flatMap((task) => axis(line, run.names[task], line.y(task) + 13)), ...line.calls.map((call) => bar(line, call)),
    ...axis(line, 'effects in order', line.bottom + 14), ...effects.flatMap((call, at) => effect(line, call, at)), now);
  const place = (event) => {
    const x = line.x(event);
    now.setAttribute('x1', x);
    now.setAttribute('x2', x);
    now.dataset.event = event;
    const room = svg.parentElement;
    const hidden = x < room.scrollLeft + LINE.names || x > room.scrollLeft + room.clientWidth - 20;
    if (hidden) room.scrollLeft = x - room.clientWidth / 2;
  };
  const eventAt = (clicked) => {
    const bounds = svg.getBoundingClientRect();
    return Math.round(((clicked - bounds.left) * (line.width / bounds.width) - LINE.names) / line.scale - 0.5) + line.from;
  };
  return { svg, place, eventAt };
}
