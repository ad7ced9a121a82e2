// The errors of the package. One of the service has the name of its problem, which never changes.

/** The base of all errors of this package. */
export class SagasError extends Error {
  get name() {
    return this.constructor.name;
  }
}

/** A value that you passed is not valid. Nothing was sent. */
export class InvalidArgument extends SagasError {}

/** No service answered in time. The request may have been carried out: repeat it with the same key. */
export class Unreachable extends SagasError {}

/** The saga was not over in time. It continues. */
export class WaitTimeout extends SagasError {}

/** The codec or the blob store that you passed cannot read a value of the service. */
export class CannotDecode extends SagasError {}

/** Throw it in a function that had no effect, if retries are useless. */
export class Fail extends SagasError {}

/** Throw it in a function that had no effect, if another attempt may help. */
export class Retry extends SagasError {}

/** Throw it in a function if the outcome is unknown. Other errors mean the same; after a ReferenceError, or if a module is missing, the task also waits for a retry by an operator. */
export class Unknown extends SagasError {}

/** The reason of a task's signal: the saga is to be undone. */
export class Aborted extends SagasError {}

/** The service refused a request. */
export class Problem extends SagasError {
  constructor(status, name, detail, field) {
    super(detail);
    this.status = status;
    this.problem = name;
    this.field = field;
  }

  get name() {
    return this.constructor === Problem ? this.problem || "Problem" : this.constructor.name;
  }
}

/** The token is missing, unknown or expired. */
export class Unauthorized extends Problem {}
/** The token does not allow the request. */
export class Forbidden extends Problem {}
/** No saga has the key, or the token must not see it. */
export class NoSuchSaga extends Problem {}
/** The service has no such definition. */
export class NoSuchDefinition extends Problem {}
/** No task has this attempt id. */
export class NoSuchTask extends Problem {}
/** The key has another saga, or another input. */
export class KeyConflict extends Problem {}
/** The step, or the saga, waits for no such report. */
export class StepNotWaiting extends Problem {}
/** Another outcome was reported first, and counts. */
export class ConflictingReport extends Problem {}
/** The saga is over. */
export class SagaOver extends Problem {}
/** The saga undoes a child, so it is not aborted. */
export class NotAbortable extends Problem {}
/** The saga is open, has completed, or is a child, so it is not restarted. */
export class NotRestartable extends Problem {}
/** Another worker has the task, or an operator must decide. */
export class LeaseLost extends Problem {}
/** The lease was not issued to this worker for this task. */
export class InvalidLease extends Problem {}
/** The request, the key, the input, a label or the size is not valid. `field` names the place. */
export class InvalidRequest extends Problem {}

const CLASSES = {
  Unauthorized, Forbidden, NoSuchSaga, NoSuchDefinition, NoSuchTask, KeyConflict, StepNotWaiting, ConflictingReport,
  SagaOver, NotAbortable, NotRestartable, LeaseLost, InvalidLease, InvalidRequest,
  InvalidKey: InvalidRequest, InvalidInput: InvalidRequest, NotSerializable: InvalidRequest,
  InvalidLabel: InvalidRequest, InvalidResult: InvalidRequest, TooLarge: InvalidRequest, BodyTooLarge: InvalidRequest,
};
const MOST_TEXT = 1000;

/** The error of an answer: of a problem document, or of what a proxy says. */
export function problemOf(status, text) {
  try {
    const { type, detail, field } = JSON.parse(text);
    const name = type.slice(type.lastIndexOf(":") + 1);
    return new (CLASSES[name] ?? Problem)(status, name, `${status} ${name}: ${detail}`, field);
  } catch {
    return new Problem(status, "", `${status}: ${text.slice(0, MOST_TEXT)}`);
  }
}
