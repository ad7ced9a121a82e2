// What the service answers, in the names of JavaScript.

const date = (seconds) => (seconds === null || seconds === undefined ? null : new Date(1000 * seconds));

const planStep = ({ step, found, cost_to_keep, cost_to_drop, decision }) =>
  ({ step, found, costToKeep: cost_to_keep, costToDrop: cost_to_drop, decision });

const planOf = (body) =>
  body && { cost: body.cost, pivot: body.pivot ?? null, blockingSteps: body.blocking_steps, steps: body.steps.map(planStep) };

const waitOf = ({ since, until, ...rest }) =>
  ({ ...rest, since: date(since), until: date(until) });

/** A saga with its steps. */
export const sagaOf = (body) => ({
  key: body.key,
  definition: body.definition,
  version: body.version ?? null,
  phase: body.phase,
  over: body.over,
  started: date(body.started),
  ended: date(body.ended),
  deadline: date(body.deadline),
  aborted: body.aborted,
  note: body.note,
  labels: body.labels,
  input: body.input,
  states: body.states,
  results: body.results,
  errors: body.errors,
  optionalFailures: body.optional_failures ?? [],
  plan: planOf(body.plan),
  waits: body.waits.map(waitOf),
  progress: body.progress,
});

/** A saga of a list. */
export const summaryOf = (body) => ({
  key: body.key,
  definition: body.definition,
  version: body.version ?? null,
  phase: body.phase,
  started: date(body.started),
  ended: date(body.ended),
  deadline: date(body.deadline),
  undoFailed: body.undo_failed,
  labels: body.labels,
  note: body.note,
});

/** A decision of a list. */
export const decisionOf = (body) => ({
  number: body.number,
  decision: body.decision,
  at: date(body.at),
  by: body.by,
  via: body.via,
  note: body.note,
  isBulk: body.bulk,
  subject: body.subject,
  sagas: body.sagas,
});

/** An event of the stream. */
export const eventOf = (name, id, body) => {
  const { at, name: _, saga, ...rest } = body;
  return { name, id, at: date(at), definition: saga, ...rest };
};
