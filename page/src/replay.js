// The replay of a log: the saga after each of its events, and what each decision would have cost.

// The state of a step after an event of it, in the program's words.
const STATE_AFTER = {
  start_run: 'running', commit: 'committed', void: 'void', missed: 'waiting', fail: 'failed',
  start_undo: 'undoing', undone: 'undone', undo_missed: 'committed', undo_fail: 'fixed',
};

// What an event says, after the name of its step or of the saga.
const EVENT_WORDS = {
  open: 'is opened', start_run: 'starts', commit: 'is done', void: 'ends without an effect', missed: 'has failed, and is attempted again', fail: 'has failed',
  start_undo: 'is being undone', undone: 'is undone', undo_missed: 'could not be undone, which is attempted again', undo_fail: 'cannot be undone',
  abort: 'is aborted', start_plan: 'is planned', drop_plan: 'gets no plan', adopt: 'adopts a plan',
};

// The states that the planner assumes for steps that run: that they end well.
const ENDS_AS = { running: 'committed', undoing: 'undone' };

// The lines of a log that are events, each with the number of its line, from 1. The first line may be a header.
function events_of(log) {
  const events = [];
  log.split('\n').forEach((text, i) => {
    if (!text.trim()) return;
    const event = JSON.parse(text);
    if (!('format' in event)) events.push({ ...event, line: i + 1 });
  });
  return events;
}

// An export whose events are the lines of a log. In the log, the saga and its definition have the number 0.
function with_log(taken) {
  if (typeof taken.log === 'string') return taken;
  const lines = taken.events.map(({ at, time, def, saga, ...event }) => ({ ...event, saga: 0, ...(def === undefined ? {} : { def: 0 }) }));
  return { ...taken, log: [{ format: 2 }, ...lines].map(line => JSON.stringify(line)).join('\n') + '\n' };
}

// The sagas of a log: the number of each, and the index of its definition.
const sagas_of = events => events.filter(({ event }) => event === 'open').map(({ saga, def }) => ({ saga, def }));

// The moments of a saga: its state after each of its events. `adopted` is its last answer, with the states that it was planned for.
function moments_of(events, saga, count) {
  let states = Array(count).fill('waiting'), is_aborted = false, adopted = null;
  return events.filter(event => event.saga === saga).map((event, i) => {
    if (event.event in STATE_AFTER) states = states.map((state, step) => step === event.step ? STATE_AFTER[event.event] : state);
    if (event.event === 'abort') is_aborted = true;
    if (event.event === 'adopt') adopted = { answer: event.answer, states, is_aborted, moment: i };
    return { event, states, is_aborted, adopted };
  });
}

// The case of a moment. Steps that run are assumed to end well.
function case_of({ states, is_aborted }) {
  const assumed = states.map(state => ENDS_AS[state] || state);
  return JSON.stringify(is_aborted ? { aborted: true, states: assumed } : { states: assumed });
}

const cost_word = cost => cost === NEVER ? '"never"' : String(cost);

// A definition like that of a drawing, in which a plan must decide otherwise about one step.
function definition_otherwise(drawing, number, is_kept) {
  const needs = drawing.steps.map(() => []);
  for (const [user, need] of drawing.needs) needs[user].push(JSON.stringify(drawing.steps[need].name));
  const lines = ['format = 2', 'name = "otherwise"'];
  drawing.steps.forEach((step, i) => {
    const forced = i !== number ? {} : is_kept ? { keep: NEVER } : { skip: NEVER };
    lines.push('[[step]]', `name = ${JSON.stringify(step.name)}`, `needs = [${needs[i].join(', ')}]`);
    for (const key of ['run', 'undo', 'skip', 'keep']) lines.push(`${key} = ${cost_word(forced[key] ?? step[key])}`);
  });
  return lines.join('\n') + '\n';
}

// The cost of the cheapest plan that decides otherwise about a step, or null if no such plan is feasible.
async function cost_otherwise(drawing, planner_case, number, is_kept) {
  const reply = await call('plan', [bytes_of(definition_otherwise(drawing, number, is_kept)), bytes_of(planner_case)]);
  const answer = reply.status === OK ? JSON.parse(text_of(reply.bytes)) : {};
  return answer.kind === 'plan' ? answer.cost : null;
}
