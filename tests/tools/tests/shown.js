// What the first queue of the page shows, read off what is drawn: the touch, what it did, whether it takes
// effect, Anchor, the boxes that its ends point at, the labels and links from left to right by their places
// on the screen, each task's card, the row of the table that is brought out, and the time line's place.
(() => {
  const one = (selector, within) => within.querySelector(selector);
  const all = (selector, within) => [...within.querySelectorAll(selector)];
  const machine = one('.machine', document);
  const left = (element) => element.getBoundingClientRect().left;
  const boxes = all('.drawing .box:not(.held)', machine).sort((a, b) => left(one('rect', a)) - left(one('rect', b)));
  const drawing = one('.drawing svg', machine);
  const scale = drawing.getBoundingClientRect().width / drawing.viewBox.baseVal.width;
  const pointed = (side) => {
    const path = one('.end.' + side, machine);
    const end = path.getPointAtLength(path.getTotalLength());
    const x = drawing.getBoundingClientRect().left + end.x * scale;
    const hit = boxes.find((box) => { const { left, right } = one('rect', box).getBoundingClientRect(); return left <= x && x <= right; });
    return hit ? 'box ' + one('.soft', hit).textContent.replace('slot ', '') : 'null';
  };
  const made = (from, to) => {
    const ends = [`${from} ${to}`, `${to} ${from}`];
    const paths = all('.drawing .link', machine).filter((path) => ends.includes(`${path.dataset.from} ${path.dataset.to}`));
    return paths.length === 2 && paths.every((path) => getComputedStyle(path).strokeDasharray === 'none');
  };
  let queue = '';
  boxes.forEach((box, at) => {
    if (at) queue += made(boxes[at - 1].dataset.slot, box.dataset.slot) ? ' - ' : ' ~ ';
    queue += one('.label', box).textContent;
  });
  const row = all('tr.now td', document).map((cell) => cell.textContent);
  const wrong = all('tr.now td.wrong', document).length;
  const [event, , what, ...rest] = row.slice(0, row.length - wrong);
  const badge = one('.what .badge', machine).textContent;
  return [
    one('#counter', document).textContent,
    one('.what .did', machine).textContent,
    badge === 'takes effect' ? badge : '',
    one('.anchor text', machine).textContent,
    `left end ${pointed('left')}, right end ${pointed('right')}`,
    queue,
    all('.task .standing', machine).map((standing) => standing.textContent).join(', '),
    [event, what, ...rest].join(' / '),
    one('.line .now', machine).dataset.event,
  ].join('\n');
})()
