// Sagas over HTTP: a client for callers, and a worker that executes steps. See index.d.ts for the meaning of each name.

export { Client, Run } from "./lib/client.js";
export { Worker } from "./lib/worker.js";
export {
  Aborted, CannotDecode, ConflictingReport, Fail, Forbidden, InvalidArgument, InvalidLease, InvalidRequest, KeyConflict,
  LeaseLost, NoSuchDefinition, NoSuchSaga, NoSuchTask, NotAbortable, NotRestartable, Problem, Retry, SagaOver, SagasError,
  StepNotWaiting, Unauthorized, Unknown, Unreachable, WaitTimeout,
} from "./lib/errors.js";
