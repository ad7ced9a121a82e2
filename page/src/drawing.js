// Reads the text of a drawing, and makes a picture of it.

const STATES = ['waiting', 'committed', 'failed', 'undone', 'fixed', 'void'];
// The dashboard's word for a state. A case has the program's words.
const state_words = state => ({ committed: 'done', void: 'without effect', fixed: 'undo failed' })[state] || state;
const NEVER = Infinity;

const cost_of = word => word === 'never' ? NEVER : Number(word);

// A step of a drawing: its name, its state if there is one, and its costs.
function step_of(lines) {
  const step = { name: lines[0], state: null, run: 0, undo: 0, skip: 0, keep: 0, lines: [] };
  for (const line of lines.slice(1)) {
    const found = /^(run|undo|skip|keep) (never|\d+)$/.exec(line);
    if (found) {
      step[found[1]] = cost_of(found[2]);
      step.lines.push(line);
    } else step.state = line.split(',')[0];
  }
  return step;
}

// The contents of a drawing: the saga's name, its steps, and its needs as pairs of step numbers.
function read_drawing(text) {
  const drawing = { name: '', steps: [], needs: [] }, numbers = new Map();
  for (const line of text.split('\n')) {
    let found;
    if ((found = /^digraph "([^"]*)" \{$/.exec(line))) drawing.name = found[1];
    else if ((found = /^ {2}"([^"]*)" -> "([^"]*)"/.exec(line))) drawing.needs.push([numbers.get(found[1]), numbers.get(found[2])]);
    else if ((found = /^ {2}"([^"]*)" \[.*label="([^"]*)"\];$/.exec(line))) {
      numbers.set(found[1], drawing.steps.length);
      drawing.steps.push(step_of(found[2].split('\\n')));
    }
  }
  return drawing;
}

// The column of each step: the length of the longest chain of needs before it.
function columns_of(drawing) {
  const users = drawing.steps.map(() => []), left = drawing.steps.map(() => 0), column = drawing.steps.map(() => 0);
  for (const [user, need] of drawing.needs) { users[need].push(user); left[user]++; }
  const ready = left.flatMap((count, i) => count === 0 ? [i] : []);
  for (let k = 0; k < ready.length; k++) for (const user of users[ready[k]]) {
    column[user] = Math.max(column[user], column[ready[k]] + 1);
    if (--left[user] === 0) ready.push(user);
  }
  return column;
}

const LINE = 16, GAP = 22, BETWEEN = 62, EDGE = 18;
const MOST_CROSSED = 4000;

// The layout: a box for each step, and a path for each need, with a point in each column that it crosses (unless there are very many).
function placed(drawing) {
  const column = columns_of(drawing);
  const boxes = drawing.steps.map((step, i) => {
    const widest = Math.max(step.name.length * 8.4, ...[step.state || '', ...step.lines].map(line => line.length * 6.9));
    const wide = step.state === 'undone' ? 46 : 30, high = step.state === 'undone' ? 26 : 16;
    return { step, number: i, column: column[i], w: Math.max(78, widest + wide), h: (1 + (step.state ? 1 : 0) + step.lines.length) * LINE + high };
  });
  const crossed = drawing.needs.reduce((sum, [user, need]) => sum + column[user] - column[need] - 1, 0);
  const ways = drawing.needs.map(([user, need]) => {
    const way = [user];
    for (let at = column[user] - 1; crossed <= MOST_CROSSED && at > column[need]; at--) {
      boxes.push({ column: at, w: 0, h: 6 });
      way.push(boxes.length - 1);
    }
    return [...way, need];
  });
  const columns = [];
  boxes.forEach((box, i) => (columns[box.column] ||= []).push(i));
  order(boxes, ways, columns);
  return { boxes, ways, ...spread(boxes, columns) };
}

// Orders each column so that paths are short: by the mean place of the neighbors, in alternating sweeps.
function order(boxes, ways, columns) {
  const before = boxes.map(() => []), after = boxes.map(() => []), rank = boxes.map(() => 0);
  for (const way of ways) for (let k = 0; k + 1 < way.length; k++) {
    before[way[k]].push(way[k + 1]);
    after[way[k + 1]].push(way[k]);
  }
  const number = column => column.forEach((box, k) => { rank[box] = k; });
  columns.forEach(number);
  const middle = list => list.reduce((sum, box) => sum + rank[box], 0) / list.length;
  for (let round = 0; round < 8; round++) {
    const beside = round % 2 ? after : before;
    for (const column of round % 2 ? [...columns].reverse() : columns) {
      const key = new Map(column.map(box => [box, beside[box].length ? middle(beside[box]) : rank[box]]));
      column.sort((a, b) => key.get(a) - key.get(b) || rank[a] - rank[b]);
      number(column);
    }
  }
}

// Places each box, and returns the size of the picture.
function spread(boxes, columns) {
  let x = EDGE, tallest = 0;
  const heights = columns.map(column => {
    const width = Math.max(...column.map(box => boxes[box].w));
    let y = 0;
    for (const box of column) {
      boxes[box].x = x + width / 2;
      boxes[box].y = y + boxes[box].h / 2;
      y += boxes[box].h + GAP;
    }
    tallest = Math.max(tallest, y - GAP);
    x += width + BETWEEN;
    return y - GAP;
  });
  columns.forEach((column, i) => column.forEach(box => { boxes[box].y += EDGE + (tallest - heights[i]) / 2; }));
  return { width: x - BETWEEN + EDGE, height: tallest + 2 * EDGE };
}

const SPACE = 'http://www.w3.org/2000/svg';
const round = value => Math.round(value * 10) / 10;

// svg('rect', {x: 1}, ...children): a new element of the picture. A string becomes a text node.
function svg(tag, words, ...children) {
  const made = document.createElementNS(SPACE, tag);
  for (const [key, value] of Object.entries(words)) made.setAttribute(key, typeof value === 'number' ? round(value) : value);
  made.append(...children);
  return made;
}

function outline({ x, y, w, h, step }, grow, kind) {
  const half = w / 2 + grow, tall = h / 2 + grow;
  if (step.state === 'undone') return svg('ellipse', { cx: x, cy: y, rx: half, ry: tall, class: kind });
  if (step.state !== 'failed' && step.state !== 'fixed')
    return svg('rect', { x: x - half, y: y - tall, width: 2 * half, height: 2 * tall, rx: 7 + grow, class: kind });
  const cut = step.state === 'failed' ? 10 : 14;
  const corners = step.state === 'failed'
    ? [[-half + cut, -tall], [half - cut, -tall], [half, -tall + cut], [half, tall - cut], [half - cut, tall], [-half + cut, tall], [-half, tall - cut], [-half, -tall + cut]]
    : [[-half + cut, -tall], [half - cut, -tall], [half, 0], [half - cut, tall], [-half + cut, tall], [-half, 0]];
  return svg('polygon', { points: corners.map(([a, b]) => `${round(x + a)},${round(y + b)}`).join(' '), class: kind });
}

function node_of(box, marked, is_chain) {
  const { step, number, x, y } = box;
  const words = [step.name, ...(step.state ? [state_words(step.state)] : []), ...step.lines];
  const mark = marked.has(number) ? (is_chain ? 'blocks' : 'keep') : '';
  const label = `${step.name}: ${state_words(step.state) || 'no state'}${mark && ', ' + mark}`;
  const node = svg('g', { class: 'node', 'data-step': number, ...(step.is_fixed ? { role: 'img', 'aria-label': label }
    : { tabindex: 0, role: 'button', 'aria-label': `${label}. Press for the next state.` }) });
  if (step.is_now) node.append(outline(box, 9, 'ring now'));
  if (mark) node.append(outline(box, 4.5, is_chain ? 'ring chain' : 'ring'));
  node.append(outline(box, 0, `shape ${step.state || ''}`));
  words.forEach((word, k) => node.append(svg('text', { x, y: y + (k - (words.length - 1) / 2) * LINE + 4.5, 'text-anchor': 'middle', class: k ? 'line' : 'name' }, word)));
  return node;
}

// The path of a need, from a step back to the step that it needs, with an arrow at the first one. It is thick if both are marked.
function way_of(boxes, way, marked) {
  const last = way.length - 1, is_marked = marked.has(way[0]) && marked.has(way[last]);
  const points = way.map((i, k) => [boxes[i].x + (k === 0 ? -boxes[i].w / 2 - 12 : k === last ? boxes[i].w / 2 : 0), boxes[i].y]);
  let path = `M${round(points[0][0])},${round(points[0][1])}`;
  for (let k = 1; k < points.length; k++) {
    const [ax, ay] = points[k - 1], [bx, by] = points[k], middle = round((ax + bx) / 2);
    path += `C${middle},${round(ay)} ${middle},${round(by)} ${round(bx)},${round(by)}`;
  }
  const [x, y] = points[0];
  return [svg('path', { class: 'edge', d: path, 'stroke-width': is_marked ? 2.6 : 1.4 }), svg('path', { class: 'tip', d: `M${round(x + 9)},${round(y)} l-11,-5 l0,10 z` })];
}

// The picture of a drawing with the marks of an answer, as an element.
function picture_of(drawing, marked, is_chain, title) {
  const { boxes, ways, width, height } = placed(drawing);
  const made = svg('svg', { width, height, viewBox: `0 0 ${round(width)} ${round(height)}`, role: 'group', 'aria-label': title,
    'font-family': 'system-ui, sans-serif', 'font-size': '13' });
  // (as wide as the page, but not too small to read)
  made.style.maxWidth = `${round(width)}px`;
  made.style.minWidth = `${round(width * 0.7)}px`;
  for (const way of ways) made.append(...way_of(boxes, way, marked));
  for (const box of boxes) if (box.step) made.append(node_of(box, marked, is_chain));
  return made;
}
