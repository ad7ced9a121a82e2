// The planner page: its inputs, its results, and how it shows them.

const at = id => document.getElementById(id);
const FIELDS = ['log', 'definition', 'case', 'answer', 'export'];
const MOST_DRAWN = 150, MOST_ROWS = 100;
const PAUSE = 250;

// The drawing that is shown, with its states. A change of a step's state starts from it.
let shown = null;
let rounds = 0;

const mode = () => document.querySelector('input[name=mode]:checked').value;
const given = field => bytes_of(at(field).value);

// element('li', {class: 'x'}, ...children): a new element of the page. A string becomes a text node.
function element(tag, words, ...children) {
  const made = document.createElement(tag);
  for (const [key, value] of Object.entries(words)) made.setAttribute(key, value);
  made.append(...children);
  return made;
}

// ---- Messages.

function tell(kind, verdict, checked = '', remedy = '') {
  at('told').className = `card told ${kind}`;
  at('verdict').textContent = verdict;
  at('checked').textContent = checked;
  at('remedy').textContent = remedy;
}

// The cause and the remedy of a message, from the error reference. There, letters stand for the numbers of a message.
function entry_of(line) {
  for (const letters of ['', 'N', 'P', 'K']) {
    const entry = LINES[letters ? line.replace(/\d+/, letters) : line];
    if (entry) return { cause: quoted_words(entry[0]), remedy: quoted_words(entry[1].replace('run `sagas plan`', 'plan it here, or run `sagas plan`').replace('Run `sagas plan`', 'Plan it here, or run `sagas plan`')) };
  }
  return { cause: '', remedy: '' };
}

const quoted_words = text => text.replace(/`([^`]*)`/g, '“$1”');
const sentence = text => text && text[0].toUpperCase() + text.slice(1) + '.';

// Shows an error below its field.
function tell_at(field, line, quoted = '', other = '') {
  const entry = entry_of(line), { cause } = entry, remedy = other || entry.remedy;
  at(field).setAttribute('aria-invalid', 'true');
  const parts = [element('b', {}, sentence(cause) || line), element('span', {}, sentence(remedy))];
  if (quoted) parts.push(element('code', {}, quoted));
  at(`${field}-fault`).append(...parts);
  return { cause, remedy };
}

// The separator line between definitions.
const PARTED = /^---[ \t]*\r?\n/m;

// A line of a text, shortened. Lines are numbered from 1.
function line_of(text, number) {
  const line = text.split('\n')[number - 1] || '';
  return `${number}: ${line.length > 300 ? line.slice(0, 300) + '…' : line}`;
}

// Selects a line of a field, so that the line is visible when the field gets the focus. Lines are numbered from 1.
function mark_line(field, number) {
  if (document.activeElement === at(field)) return; // (the cursor of a user who types stays)
  const lines = at(field).value.split('\n'), before = lines.slice(0, number - 1), style = getComputedStyle(at(field));
  const start = before.reduce((sum, line) => sum + line.length + 1, 0);
  at(field).setSelectionRange(start, start + (lines[number - 1] || '').length);
  // (A line that is wider than the field takes several rows. A letter is about 0.6 times as wide as it is high.)
  const wide = (at(field).clientWidth - 2 * parseFloat(style.paddingLeft)) / (0.6 * parseFloat(style.fontSize));
  const rows = before.reduce((sum, line) => sum + Math.max(1, Math.ceil(line.length / wide)), 0);
  at(field).scrollTop = Math.max(0, (rows - 3) * parseFloat(style.lineHeight));
}

const PLACES = { definition: 'definition', case: 'case', answer: 'certificate', log: 'log' };

// What the engine says about a text as a definition: a word, or nothing.
async function word_of(text) {
  const reply = await call('draw', [bytes_of(text)]);
  return reply.status === INVALID ? /^sagas: definition: (.*)$/.exec(text_of(reply.bytes).trimEnd())?.[1] : '';
}

// The first line of a definition that is not valid TOML: the line after the longest prefix that can be read. Lines are numbered from 1.
async function line_not_toml(text) {
  const lines = text.split('\n'), is_toml = async count => {
    const reply = await call('draw', [bytes_of(lines.slice(0, count).join('\n') + '\n')]);
    return reply.status === OK || (reply.status === INVALID && !text_of(reply.bytes).includes(': not-toml'));
  };
  let good = 0;
  for (let bad = lines.length; bad - good > 1;) {
    const middle = (good + bad) >> 1;
    if (await is_toml(middle)) good = middle; else bad = middle;
    // (A list over several lines is not valid TOML before its end.)
    for (let more = 1; bad - good === 1 && more < 40 && good + more < lines.length; more++) {
      if (await is_toml(good + more)) { good += more; bad = lines.length; break; }
    }
  }
  return good + 1;
}

// Shows the error of a text: `sagas: FIELD: WORD`, with the number of a line or of a definition if there is one.
async function tell_fault(reply) {
  if (reply.status === NO_MEMORY) return tell('bad', 'The page is out of memory', reply.error || '', 'Try a smaller saga, or use the program.');
  const line = text_of(reply.bytes).trimEnd();
  const [, field, numbers] = /^sagas: (definition|case|answer|log)\b(.*)$/.exec(line) || [, 'definition', ''];
  let quoted = '', word = line;
  const of_line = /^: line (\d+)/.exec(numbers), of_shelf = /^ (\d+): /.exec(numbers), busy = /^: busy (\d+)/.exec(numbers);
  if (of_line) { quoted = line_of(at('log').value, Number(of_line[1])); mark_line('log', Number(of_line[1])); }
  if (of_shelf) { quoted = `definition ${of_shelf[1]}`; word = line.replace(/ \d+: /, ': '); }
  if (busy) quoted = `step ${busy[1]}`;
  let other = '', of_text = '';
  if (field === 'definition') {
    const shelf = at('definition').value.split(PARTED), number = of_shelf ? Number(of_shelf[1]) : 0, text = shelf[number] || '';
    const before = shelf.slice(0, number).reduce((sum, part) => sum + part.split('\n').length, 0);
    const is_toml = word !== 'sagas: definition: not-toml';
    const found = is_toml ? await line_of_word(text, word.split(': ')[2], word_of) : await line_not_toml(text);
    if (found !== null) {
      const place = before + found;
      if (!is_toml) other = `look at line ${place}: it is the first that cannot be parsed`;
      quoted = line_of(at('definition').value, place);
      of_text = `: line ${place}`;
      mark_line('definition', place);
    }
  }
  const { remedy } = tell_at(field, word, quoted, other);
  tell('bad', `The ${PLACES[field]} cannot be read${of_text}`, line, sentence(remedy));
}

function clear() {
  for (const field of FIELDS) {
    at(field).removeAttribute('aria-invalid');
    at(`${field}-fault`).replaceChildren();
  }
  for (const id of ['replay', 'figure', 'chain', 'numbers', 'steps', 'certificate']) at(id).hidden = true;
  shown = null;
}

// ---- The picture and the steps.

const none = new Set();

// Shows a drawing with the marks of an answer.
function show_picture(drawing, marked, is_chain, title) {
  const focused = document.activeElement?.closest?.('.node')?.dataset.step;
  at('figure').hidden = false;
  const fill = () => {
    const picture = picture_of(drawing, marked, is_chain, title);
    at('picture').replaceChildren(picture);
    if (focused !== undefined) picture.querySelector(`[data-step="${focused}"]`)?.focus({ preventScroll: true });
  };
  if (drawing.steps.length > MOST_DRAWN) {
    const button = element('button', { type: 'button', id: 'draw' }, `Draw all ${drawing.steps.length} steps`);
    button.addEventListener('click', fill);
    at('picture').replaceChildren(button);
  } else fill();
  const words = [];
  if (marked.size) words.push(element('span', {}, element('i', { class: is_chain ? 'chain' : '' }), is_chain ? 'the steps that block every plan' : 'keep'));
  words.push(element('span', {}, 'Arrows lead from what a step needs to the step.'));
  if (mode() !== 'replay') words.push(element('span', {}, 'Click a step to change its state.'));
  at('legend').replaceChildren(...words);
}

const priced = price => price === NEVER ? 'never' : price.toLocaleString('en');

// The selection of a step's state.
function chooser(step, number) {
  const made = element('select', { 'aria-label': `State of ${step.name}`, 'data-step': number });
  for (const state of STATES) made.append(new Option(state_words(state), state, false, state === (step.state || 'waiting')));
  made.addEventListener('change', () => set_state(number, made.value));
  return made;
}

// The row of a step: its state, its two costs, the decision, the cost of the other decision and the reason. Without a plan there is no decision.
function row_of(drawing, beside, kept, i, is_aborted) {
  const step = drawing.steps[i], is_kept = kept?.has(i);
  const price = (label, value, is_taken) => element('td', { class: `price${is_taken ? ' taken' : ''}`, 'data-label': label }, priced(value));
  return element('tr', {},
    element('td', { class: 'name' }, step.name),
    element('td', { class: 'is' }, step.is_fixed ? state_words(step.is_now_in) : chooser(step, i)),
    price('cost to keep', cost_to_keep(step, is_aborted), kept && is_kept),
    price('cost to drop', cost_to_drop(step), kept && !is_kept),
    element('td', { class: `shall ${is_kept ? 'stands' : 'gone'}` }, kept ? shall(step, is_kept) : ''),
    element('td', { class: 'price otherwise', 'data-label': 'otherwise', 'data-step': i }),
    element('td', { class: 'why' }, kept ? why(drawing, beside, kept, i, is_aborted) : ''));
}

// The table of the steps. If there are many, it shows only the first ones until the user asks for all.
function show_steps(drawing, kept, cost) {
  const focused = document.activeElement?.closest?.('td select')?.dataset.step;
  const body = at('steps').querySelector('tbody'), beside = neighbors_of(drawing), is_aborted = at('aborted').checked;
  const fill = count => {
    body.replaceChildren(...drawing.steps.slice(0, count).map((_, i) => row_of(drawing, beside, kept, i, is_aborted)));
    at('all').hidden = count >= drawing.steps.length;
    if (kept) fill_otherwise(drawing, kept, at('case').value);
  };
  fill(MOST_ROWS);
  at('all').textContent = `Show all ${drawing.steps.length} steps`;
  at('all').onclick = () => fill(drawing.steps.length);
  at('steps').querySelector('tfoot').replaceChildren(...(kept ? [element('tr', {}, element('td', { colspan: 7 }, `Sum of the marked costs: ${cost}`))] : []));
  at('steps').classList.toggle('bare', !kept);
  at('steps').hidden = false;
  if (focused !== undefined) body.querySelector(`select[data-step="${focused}"]`)?.focus({ preventScroll: true });
}

// Fills in, for each row that is shown, what the cheapest plan with the other decision costs. It stops once other steps are shown.
async function fill_otherwise(drawing, kept, planner_case) {
  const cells = [...at('steps').querySelectorAll('td.otherwise')], is_aborted = at('aborted').checked;
  for (const cell of cells) {
    const number = Number(cell.dataset.step), is_kept = kept.has(number), step = drawing.steps[number];
    const is_fixed = (is_kept ? cost_to_drop(step) : cost_to_keep(step, is_aborted)) === NEVER;
    const cost = is_fixed ? null : await cost_otherwise(drawing, planner_case, number, is_kept);
    if (!cell.isConnected) return;
    cell.textContent = cost === null ? 'not possible' : cost.toLocaleString('en');
    if (number % 16 === 15) await new Promise(done => setTimeout(done));
  }
}

// Writes the case again after a change of states.
function write_case(states) {
  at('case').value = JSON.stringify(at('aborted').checked ? { aborted: true, states } : { states });
  return run();
}

const states_shown = () => shown.steps.map(step => step.state || 'waiting');

function set_state(number, state) {
  if (!shown) return;
  const states = states_shown();
  states[number] = state;
  write_case(states);
}

function next_state(number) {
  if (!shown) return;
  const step = shown.steps[number];
  set_state(number, STATES[(STATES.indexOf(step.state || 'waiting') + 1) % STATES.length]);
}

// ---- Plans and certificates.

function show_chain(drawing, chain) {
  const steps = chain.map(i => drawing.steps[i]), last = steps.length - 1, is_aborted = at('aborted').checked;
  const lines = steps.map((step, k) => element('li', {}, element('b', {}, step.name), ': ',
    [k === 0 ? why_forced(step) : '', k === last ? why_barred(step, is_aborted) : `it needs ${steps[k + 1].name}`].filter(word => word).join(', and ')));
  at('chain').replaceChildren(element('h2', {}, 'Why no plan is feasible'), element('ol', {}, ...lines));
  at('chain').hidden = false;
}

const listed = (list, steps) => list.slice(0, 6).map(i => steps[i].name).join(', ') + (list.length > 6 ? ` and ${list.length - 6} more` : '');

// Shows an answer that the checker accepted. `says` is the text of the checker, which has the cost.
function show_right(drawing, answer, says, is_planned) {
  const checked = `${is_planned ? 'Planned, then verified' : 'Verified'} here by the proved checker: ${says}.`;
  if (answer.kind === 'plan') {
    const cost = says.split(' ')[1], kept = new Set(answer.kept);
    const undone = drawing.steps.flatMap((step, i) => step.state === 'committed' && !kept.has(i) ? [i] : []);
    const ends = [answer.kept.length ? `keep ${listed(answer.kept, drawing.steps)}` : 'keep nothing', ...(undone.length ? [`undo ${listed(undone, drawing.steps)}`] : [])];
    tell('good', `${is_planned ? 'Plan of minimum cost' : 'Valid: a plan of minimum cost'} ${cost}: ${ends.join('; ')}`, checked, 'No feasible plan costs less. The flow in the certificate proves it.');
    show_picture(drawing, kept, false, `${drawing.name}: plan of cost ${cost}`);
    show_steps(drawing, kept, cost);
  } else {
    tell('no', is_planned ? 'No plan is feasible' : 'Valid: no plan is feasible', checked, 'Replace a never by a cost, or change the state of a step.');
    show_picture(drawing, new Set(answer.chain), true, `${drawing.name}: blocked`);
    show_chain(drawing, answer.chain);
    show_steps(drawing, null, '');
  }
}

function show_certificate(text) {
  at('text').textContent = text;
  at('copied').textContent = '';
  at('certificate').hidden = false;
}

// Draws the inputs if they can be read: the definition with the states of the case. If the case cannot be read, each step has its state of the case, or is waiting.
async function drawn() {
  for (const [name, texts] of [['draw_case', ['definition', 'case']], ['draw', ['definition']]]) {
    const reply = await call(name, texts.map(given));
    if (reply.status !== OK) continue;
    const drawing = read_drawing(text_of(reply.bytes)), states = states_typed();
    drawing.steps.forEach((step, i) => { step.state ||= STATES.includes(states[i]) ? states[i] : 'waiting'; });
    return drawing;
  }
  return null;
}

// The states in the text of the case, as far as they can be read.
function states_typed() {
  try {
    const { states } = JSON.parse(at('case').value);
    return Array.isArray(states) ? states : [];
  } catch {
    return [];
  }
}

// Sets the checkbox from the case if the case can be read.
function read_aborted() {
  try {
    at('aborted').checked = JSON.parse(at('case').value).aborted === true;
  } catch { /* told as a fault of the case */ }
}

// Replaces a case that is of another definition, or none, by one in which all steps are waiting.
async function fit_case() {
  const drawing = await drawn();
  if (drawing && states_typed().length !== drawing.steps.length) at('case').value = JSON.stringify({ states: drawing.steps.map(() => 'waiting') });
}

async function plan_or_judge() {
  if (!at('case').value.trim()) await fit_case();
  read_aborted();
  const is_planned = mode() === 'plan';
  let answer = given('answer');
  if (is_planned) {
    const planned = await call('plan', [given('definition'), given('case')]);
    if (planned.status > REJECTED) return refused(planned);
    answer = planned.bytes;
  }
  const judged = await call('check', [given('definition'), given('case'), answer]);
  if (judged.status > REJECTED) return refused(judged);
  shown = await drawn();
  const says = text_of(judged.bytes).trimEnd();
  if (judged.status === REJECTED) {
    const { cause, remedy } = tell_at('answer', says);
    tell('no', 'This certificate is not valid', `Verified here by the proved checker: ${says}. ${sentence(cause)}`, sentence(remedy));
    show_picture(shown, none, false, shown.name);
    return show_steps(shown, null, '');
  }
  show_right(shown, JSON.parse(text_of(answer)), says, is_planned);
  if (is_planned) show_certificate(text_of(answer).trimEnd());
}

// Shows the error of a text. The steps stay visible, so that the user can correct a case with them.
async function refused(reply) {
  shown = await drawn();
  await tell_fault(reply);
  if (!shown) return;
  if (at('case').hasAttribute('aria-invalid')) at('remedy').textContent += ' Or set a step below: this writes a new case, with a state for each step.';
  show_picture(shown, none, false, shown.name);
  show_steps(shown, null, '');
}

// ---- Logs.

// The definitions of a text, between lines of ---: their bytes, and the span of each.
function shelf_of(text) {
  const parts = text.split(PARTED).map(bytes_of), spans = [];
  let start = 0;
  for (const part of parts) { spans.push([start, start + part.length]); start += part.length; }
  const all = new Uint8Array(start);
  parts.forEach((part, i) => all.set(part, spans[i][0]));
  return { all, spans };
}

// The number of the line that has an event. Events are numbered from 0 and lines from 1. The first line may be a header.
const line_of_event = (log, event) => event + (/^\s*\{\s*"format"/.test(log) ? 2 : 1);

async function audit() {
  const { all, spans } = shelf_of(at('definition').value);
  const reply = await call('audit_all', [given('log'), all], spans);
  if (reply.status > REJECTED) return tell_fault(reply);
  const says = text_of(reply.bytes).trimEnd(), checked = `Audited here by the proved auditor: ${says}.`;
  if (reply.status === OK) {
    const numbers = says.split(' ').slice(1);
    tell('good', 'Valid: every event was allowed', checked, 'Every adopted plan has minimum cost, and every ended saga reached its goal.');
    const of = [];
    for (let i = 0; i < numbers.length; i += 2) of.push(element('div', {}, element('dt', {}, numbers[i]), element('dd', {}, Number(numbers[i + 1]).toLocaleString('en'))));
    at('numbers').replaceChildren(element('dl', {}, ...of));
    at('numbers').hidden = false;
    return undefined;
  }
  const event = Number(says.split(' ')[1]), number = line_of_event(at('log').value, event);
  const { cause, remedy } = tell_at('log', says, line_of(at('log').value, number));
  mark_line('log', number);
  return tell('no', `Invalid: event ${event}, in line ${number}, was not allowed`, `${checked} ${sentence(cause)}`, sentence(remedy));
}

// ---- The replay of a log.

// The log that is replayed: the texts of its definitions, its events, its sagas, and the moments of the saga that is shown.
let replay = null;

const moment_shown = () => Number(at('moment').value);

async function load_replay() {
  const { all, spans } = shelf_of(at('definition').value);
  const reply = await call('audit_all', [given('log'), all], spans);
  if (reply.status > REJECTED) return tell_fault(reply);
  const says = text_of(reply.bytes).trimEnd(), every = events_of(at('log').value);
  const events = reply.status === OK ? every : every.slice(0, Number(says.split(' ')[1]));
  const sagas = sagas_of(events);
  if (!sagas.length) return tell('no', 'The log opens no saga', `Audited here by the proved auditor: ${says}.`);
  replay = { definitions: at('definition').value.split(PARTED), events, sagas, audited: says };
  const wanted = link_wanted();
  at('saga').replaceChildren(...sagas.map(({ saga }) => new Option(`saga ${saga}`, String(saga), false, String(saga) === wanted.saga)));
  at('saga').hidden = sagas.length === 1;
  return choose_saga(wanted.moment);
}

// Shows a saga of the log at a moment, or at its last one.
async function choose_saga(moment = null) {
  const { saga, def } = replay.sagas[at('saga').selectedIndex];
  replay.definition = replay.definitions[def];
  replay.drawing = read_drawing(text_of((await call('draw', [bytes_of(replay.definition)])).bytes));
  replay.moments = moments_of(replay.events, saga, replay.drawing.steps.length);
  const last = replay.moments.length - 1;
  at('moment').max = String(last);
  at('moment').value = String(Math.min(moment ?? last, last));
  at('events').replaceChildren(...replay.moments.map(({ event }, i) => {
    const button = element('button', { type: 'button' }, event_words(event));
    button.addEventListener('click', () => move_to(i));
    return element('li', {}, button);
  }));
  return show_moment();
}

function event_words({ event, step }) {
  return `${step === undefined ? 'the saga' : replay.drawing.steps[step].name} ${EVENT_WORDS[event]}`;
}

function move_to(moment) {
  at('moment').value = String(Math.max(0, Math.min(moment, replay.moments.length - 1)));
  return show_moment();
}

// Shows the moment of the slider: the saga's states, and the plan that it follows, or the cheapest one if it had to be planned now.
async function show_moment() {
  const number = moment_shown(), moment = replay.moments[number], basis = moment.adopted || moment;
  clear();
  at('replay').hidden = false;
  at('count').textContent = `${number} of ${replay.moments.length - 1}`;
  at('moment').setAttribute('aria-valuetext', event_words(moment.event));
  [...at('events').querySelectorAll('button')].forEach((button, i) => button.setAttribute('aria-current', String(i === number)));
  const current = at('events').children[number];
  at('events').scrollTop = current.offsetTop - at('events').offsetTop - at('events').clientHeight / 2;
  history.replaceState(null, '', link_of(replay.link));
  at('case').value = case_of(basis);
  at('aborted').checked = basis.is_aborted;
  const texts = [bytes_of(replay.definition), given('case')];
  const answer = moment.adopted ? bytes_of(JSON.stringify(moment.adopted.answer)) : (await call('plan', texts)).bytes;
  const says = text_of((await call('check', [...texts, answer])).bytes).trimEnd();
  show_answer_at(moment, basis, JSON.parse(text_of(answer)), says);
  show_certificate(text_of(answer).trimEnd());
  document.body.dataset.rounds = String(++rounds);
}

// The drawing of the replay, with the states of a plan's case, and the states now.
function drawing_at(moment, basis) {
  const { states } = JSON.parse(case_of(basis));
  return { ...replay.drawing, steps: replay.drawing.steps.map((step, i) => ({ ...step, state: states[i], is_fixed: true, is_now_in: moment.states[i] })) };
}

function show_answer_at(moment, basis, answer, says) {
  const planned = drawing_at(moment, basis), event = event_words(moment.event);
  const now = { ...planned, steps: planned.steps.map((step, i) => ({ ...step, state: moment.states[i], is_now: i === moment.event.step })) };
  const when = moment.adopted ? `It follows the plan of event ${basis.moment}` : 'If it had to be planned now';
  const checked = `Verified here by the proved checker: ${says}. The log is audited: ${replay.audited}.`;
  const verdict = event[0].toUpperCase() + event.slice(1);
  if (answer.kind === 'plan') {
    const kept = new Set(answer.kept), cost = says.split(' ')[1];
    tell('good', verdict, checked, `${when}: cost ${cost}, ${answer.kept.length ? `keeping ${listed(answer.kept, planned.steps)}` : 'keeping nothing'}.`);
    show_picture(now, kept, false, `${planned.name}: ${event}`);
    show_steps(planned, kept, cost);
  } else {
    tell('no', verdict, checked, `${when}: no plan is feasible.`);
    show_picture(now, new Set(answer.chain), true, `${planned.name}: blocked`);
    show_chain(planned, answer.chain);
    show_steps(planned, null, '');
  }
}

// ---- Exports and links.

const letters_of = text => btoa(String.fromCharCode(...bytes_of(text))).replace(/\+/g, '-').replace(/\//g, '_').replace(/=+$/, '');
const text_of_letters = letters => text_of(Uint8Array.from(atob(letters.replace(/-/g, '+').replace(/_/g, '/')), letter => letter.charCodeAt(0)));

// What the address asks for: an export, the number of a saga, and a moment. All of it stays in the browser.
function link_wanted() {
  const words = new URLSearchParams(location.hash.slice(1)), moment = words.get('moment');
  return { letters: words.get('replay'), saga: words.get('saga') || '', moment: moment === null ? null : Number(moment) || 0 };
}

// The address of the moment that is shown, with these letters of an export.
function link_of(letters) {
  const words = [...(letters ? [`replay=${letters}`] : ['replay=']), ...(replay.sagas.length > 1 ? [`saga=${at('saga').value}`] : []), `moment=${moment_shown()}`];
  return `#${words.join('&')}`;
}

const export_of = () => JSON.stringify({ export: 1, definition: at('definition').value, log: at('log').value });

// Takes the text of an export: a JSON object with the definition, and the log as a text or as a list of events.
async function take_export(text, letters = '') {
  let taken = null;
  try { taken = with_log(JSON.parse(text)); } catch { /* told below */ }
  document.querySelector('input[value=replay]').checked = true;
  show_examples();
  if (typeof taken?.definition !== 'string' || typeof taken?.log !== 'string') {
    clear();
    document.body.dataset.mode = mode();
    document.body.dataset.rounds = String(++rounds);
    at('export').setAttribute('aria-invalid', 'true');
    at('export-fault').append(element('b', {}, 'It is no export of a saga.'), element('span', {}, 'An export is a JSON object with a definition and events.'));
    return tell('bad', 'The export cannot be read', '', 'Make it with sagas store STORE export KEY.');
  }
  at('definition').value = taken.definition;
  at('log').value = taken.log;
  await run();
  if (replay) replay.link = letters;
  return undefined;
}

async function take_file(file) {
  if (file) await take_export(await file.text());
}

async function follow_link() {
  const { letters } = link_wanted();
  if (!letters) return false;
  let text = '';
  try { text = text_of_letters(letters); } catch { /* told as no export */ }
  await take_export(text, letters);
  return true;
}

async function copy_link() {
  replay.link = letters_of(export_of());
  history.replaceState(null, '', link_of(replay.link));
  let done = 'Copied';
  try { await navigator.clipboard.writeText(location.href); } catch { done = 'It is the address'; }
  at('link').textContent = done;
  setTimeout(() => { at('link').textContent = 'Copy link'; }, 1600);
}

const KEYS = { ArrowLeft: number => number - 1, ArrowRight: number => number + 1, Home: () => 0, End: () => Infinity };

function listen_to_replay() {
  at('moment').addEventListener('input', show_moment);
  at('saga').addEventListener('change', () => choose_saga());
  for (const [id, key] of [['first', 'Home'], ['previous', 'ArrowLeft'], ['next', 'ArrowRight'], ['last', 'End']])
    at(id).addEventListener('click', () => move_to(KEYS[key](moment_shown())));
  at('link').addEventListener('click', copy_link);
  at('export').addEventListener('change', () => take_file(at('export').files[0]));
  document.addEventListener('keydown', event => {
    const is_typing = event.target.closest?.('textarea, select, input, #picture');
    if (mode() !== 'replay' || !replay || is_typing || !(event.key in KEYS) || event.ctrlKey || event.metaKey || event.altKey) return;
    event.preventDefault();
    move_to(KEYS[event.key](moment_shown()));
  });
  document.addEventListener('dragover', event => event.preventDefault());
  document.addEventListener('drop', event => { event.preventDefault(); take_file(event.dataTransfer.files[0]); });
  addEventListener('hashchange', follow_link);
}

// ---- Input.

async function run() {
  clear();
  replay = null;
  document.body.dataset.mode = mode();
  await { audit, replay: load_replay, plan: plan_or_judge, judge: plan_or_judge }[mode()]();
  document.body.dataset.rounds = String(++rounds);
}

const EXAMPLES_OF = { plan: EXAMPLES.sagas, judge: EXAMPLES.judged, audit: EXAMPLES.logs, replay: EXAMPLES.replayed };

function show_examples() {
  at('example').replaceChildren(...EXAMPLES_OF[mode()].map(({ title }, i) => new Option(title, String(i))));
}

function take_example() {
  const { texts } = EXAMPLES_OF[mode()][at('example').selectedIndex];
  for (const [field, text] of Object.entries(texts)) { at(field).value = text; at(field).scrollTop = 0; }
  return run();
}

async function copy() {
  try {
    await navigator.clipboard.writeText(at('text').textContent);
    at('copied').textContent = 'The certificate is copied.';
  } catch {
    getSelection().selectAllChildren(at('text'));
    at('copied').textContent = 'The certificate is selected: copy it with the keyboard.';
  }
  at('copy').textContent = getSelection().isCollapsed ? 'Copied' : 'Selected';
  setTimeout(() => { at('copy').textContent = 'Copy'; }, 1600);
}

function judge_it() {
  at('answer').value = at('text').textContent;
  document.querySelector('input[value=judge]').checked = true;
  show_examples();
  return run();
}

function listen() {
  let waiting;
  const renew = async field => {
    if (field === 'definition' && mode() === 'plan') await fit_case();
    await run();
  };
  for (const field of FIELDS) at(field).addEventListener('input', () => { clearTimeout(waiting); waiting = setTimeout(renew, PAUSE, field); });
  document.querySelectorAll('input[name=mode]').forEach(input => input.addEventListener('change', () => { show_examples(); take_example(); }));
  at('example').addEventListener('change', take_example);
  at('aborted').addEventListener('change', () => shown && write_case(states_shown()));
  at('waiting').addEventListener('click', () => shown && write_case(shown.steps.map(() => 'waiting')));
  at('copy').addEventListener('click', copy);
  at('judge').addEventListener('click', judge_it);
  at('picture').addEventListener('click', event => {
    const node = event.target.closest('.node');
    if (node) next_state(Number(node.dataset.step));
  });
  at('picture').addEventListener('keydown', event => {
    const node = event.target.closest('.node');
    if (node && (event.key === 'Enter' || event.key === ' ')) { event.preventDefault(); next_state(Number(node.dataset.step)); }
  });
}

// A call from base64 to base64, for tests.
async function call_by_letters(name, texts, spans) {
  const reply = await call(name, texts.map(word => Uint8Array.from(atob(word), letter => letter.charCodeAt(0))), spans);
  let letters = '';
  for (let i = 0; i < reply.bytes.length; i += 8192) letters += String.fromCharCode(...reply.bytes.subarray(i, i + 8192));
  return [reply.status, btoa(letters), reply.error || ''];
}

async function begin() {
  document.body.dataset.mode = mode();
  show_examples();
  try {
    await load();
  } catch (error) {
    document.body.dataset.rounds = '0';
    return tell('bad', 'This browser cannot run the page', String(error),
      'The page needs WebAssembly with BigInt: Chrome or Edge 85, Firefox 79, Safari 15, or later. Or use the program: ./sagas plan.');
  }
  listen();
  listen_to_replay();
  return await follow_link() || take_example();
}

window.sagas = { ready: begin(), call: call_by_letters };
