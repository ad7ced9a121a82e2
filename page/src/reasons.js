// The cost to keep a step and the cost to drop it, as the planner has them, and the reason of a decision.

function cost_to_keep(step, is_aborted) {
  switch (step.state) {
    case 'waiting': return is_aborted ? NEVER : step.run + step.keep;
    case 'committed': case 'fixed': return step.keep;
    case 'void': return 0;
    default: return NEVER;
  }
}

function cost_to_drop(step) {
  switch (step.state) {
    case 'committed': return step.undo + step.skip;
    case 'void': return step.skip === NEVER ? NEVER : 0;
    case 'fixed': return NEVER;
    default: return step.skip;
  }
}

// The neighbors of each step: the steps that it needs, and the steps that need it.
function neighbors_of(drawing) {
  const needs = drawing.steps.map(() => []), users = drawing.steps.map(() => []);
  for (const [user, need] of drawing.needs) { needs[user].push(need); users[need].push(user); }
  return { needs, users };
}

// Why a step cannot be dropped.
const why_forced = step => step.state === 'fixed' ? 'its compensation failed'
  : step.state === 'committed' && step.undo === NEVER ? 'it cannot be undone' : 'it is mandatory';

// Why a step cannot be kept.
const why_barred = (step, is_aborted) => step.state === 'failed' ? 'it has failed'
  : step.state === 'undone' ? 'it was undone'
  : step.state === 'waiting' && is_aborted ? 'the saga was aborted'
  : step.state === 'waiting' && step.run === NEVER ? 'it must not run' : 'its effect must not stay';

const names = (list, steps) => list.slice(0, 3).map(i => steps[i].name).join(', ') + (list.length > 3 ? ` and ${list.length - 3} more` : '');

// Why a step is kept or dropped in a minimum-cost plan with this kept set.
function why(drawing, { needs, users }, kept, i, is_aborted) {
  const step = drawing.steps[i], keep = cost_to_keep(step, is_aborted), drop = cost_to_drop(step);
  if (kept.has(i)) {
    if (drop === NEVER) return why_forced(step);
    const using = users[i].filter(user => kept.has(user));
    if (keep > drop || (keep === drop && using.length)) return `${names(using, drawing.steps)} ${using.length > 1 ? 'need' : 'needs'} it`;
    return keep === drop ? 'both cost the same' : 'this costs less';
  }
  if (keep === NEVER) return why_barred(step, is_aborted);
  if (drop < keep) return 'this costs less';
  const lacking = needs[i].filter(need => !kept.has(need));
  if (lacking.length) return `it needs ${names(lacking, drawing.steps)}, which ${lacking.length > 1 ? 'are' : 'is'} dropped`;
  return drop === keep ? 'both cost the same' : 'this costs less together with other steps';
}

// What a plan does with a step, in the dashboard's words.
const shall = (step, is_kept) => is_kept ? (step.state === 'waiting' ? 'run' : 'keep') : step.state === 'committed' ? 'undo' : 'skip';
