/** Sagas over HTTP: a client for callers, and a worker that executes steps. */

/**
 * What a definition's sagas have: the type of their input, and of each step's result; of a step that is there for
 * items a list of results, or an object by the keys of the items.
 */
export interface Definition {
  input: unknown;
  results: object;
  /** The type of the items of each step that has some. */
  items?: object;
}

/** What holds if you pass no types. */
export type AnyDefinitions = Record<string, { input: any; results: Record<string, any> }>;

type Name<T> = Extract<keyof T, string>;
/** The definitions of a service by name: a type of yours, for `Client<..>` and `Worker<..>`. */
export type Definitions<D> = Record<keyof D, Definition>;
type Input<D extends Definitions<D>, S extends Name<D>> = D[S]["input"];
type Results<D extends Definitions<D>, S extends Name<D>> = D[S]["results"];
type Items<D extends Definitions<D>, S extends Name<D>> = D[S] extends { items: infer T } ? T : unknown;
/** The item of a step: `null` if it has none, `any` without types. */
type Item<D extends Definitions<D>, S extends Name<D>, P> =
  unknown extends Items<D, S> ? (string extends keyof Results<D, S> ? any : null) : P extends keyof Items<D, S> ? Items<D, S>[P] : null;
/** What the function of a step returns: of one with items the result of one item. */
type Returned<D extends Definitions<D>, S extends Name<D>, P extends Name<Results<D, S>>> =
  P extends keyof Items<D, S> ? (Results<D, S>[P] extends readonly (infer E)[] ? E : Results<D, S>[P][keyof Results<D, S>[P]]) : Results<D, S>[P];

export type Phase = "open" | "completed" | "recovered" | "stuck" | "resolved";
export type State = "waiting" | "begun" | "running" | "committed" | "failed" | "undoing" | "undone" | "undo_failed";
export type Labels = Record<string, string>;

export interface PlanStep {
  step: string;
  found: string;
  /** `null` means never. */
  costToKeep: number | null;
  costToDrop: number | null;
  decision: string;
}

export interface Plan {
  /** `null` if the saga is stuck. */
  cost: number | null;
  /** The pivot of the saga, or `null`. With a pivot, the costs have no meaning of their own. */
  pivot: string | null;
  blockingSteps: string[];
  steps: PlanStep[];
}

/** An attempt that waits. */
export interface Waiting {
  /** `null`: no node executes the saga. */
  step: string | null;
  undo: boolean;
  attempt: number;
  why: string;
  since: Date | null;
  until: Date | null;
  detail: string | null;
  /** Whether a person must report something. */
  person: boolean;
}

/** A saga, as it was when it was asked for. */
export interface Saga<I = any, R = Record<string, any>> {
  key: string;
  definition: string;
  /** Of the definition; `null` if the service does not report it. */
  version: number | null;
  phase: Phase;
  /** Whether it is not open. */
  over: boolean;
  started: Date;
  ended: Date | null;
  deadline: Date | null;
  aborted: boolean;
  /** The note of an operator who resolved it. */
  note: string | null;
  labels: Labels;
  input: I;
  states: Record<Name<R>, State>;
  /** Results of the steps that remain in effect. */
  results: Partial<R>;
  /** What failed steps raised. */
  errors: Partial<Record<Name<R>, string>>;
  /** The failed steps without which the saga continued. */
  optionalFailures: Name<R>[];
  plan: Plan | null;
  waits: Waiting[];
  progress: { step: string; fraction: number; detail: string | null }[];
}

/** A saga of a list. */
export interface SagaSummary {
  key: string;
  definition: string;
  /** Of the definition; `null` if the service does not know it. */
  version: number | null;
  phase: Phase;
  started: Date;
  ended: Date | null;
  deadline: Date | null;
  undoFailed: boolean;
  labels: Labels;
  note: string | null;
}

/** What an operator or an approver decided on a saga, and how it was answered. */
export interface DecidedSaga {
  key: string;
  definition: string;
  /** `null`: the saga itself. */
  step: string | null;
  /** Whether the compensation of the step is meant. */
  undo: boolean;
  answer: "done" | "refused" | "waiting";
}

/** A decision, or a bulk of decisions. */
export interface Decision {
  /** Its position: a later decision has a larger number. */
  number: number;
  /** What was decided, for example `retry`. */
  decision: string;
  at: Date;
  /** Who decided; `null`: a program that did not say. */
  by: string | null;
  via: "dashboard" | "http" | "command" | "program";
  note: string | null;
  isBulk: boolean;
  /** On what it was, if on no saga: the scope of a pause. */
  subject: string | null;
  /** At most 1,000. */
  sagas: DecidedSaga[];
}

/** An event of the stream. `missed` says that some are no longer stored: look at the sagas themselves. */
export interface SagaEvent {
  name: string;
  /** For `lastEventId` of a later stream. */
  id: string;
  at: Date | null;
  definition?: string;
  key?: string;
  step?: string;
  undo?: boolean;
  attempt?: number;
  seconds?: number;
  detail?: string;
}

export interface CallOptions {
  /** Ends the call; the request may have been carried out. */
  signal?: AbortSignal;
}

export interface StartOptions extends CallOptions {
  labels?: Labels;
  /** Seconds after which the saga is aborted if it has not ended. */
  deadline?: number;
  /** Default: the newest for a new saga, and any for an existing one. */
  version?: number;
  /** The W3C trace context that the saga is started in (default: none). */
  traceparent?: string;
}

export interface WaitOptions extends CallOptions {
  /** Seconds (default: for ever). */
  timeout?: number;
}

export interface AbortOptions extends CallOptions {
  note?: string;
}

export interface ReportOptions extends CallOptions {
  /** Whether the compensation is meant (default: false). */
  undo?: boolean;
  /** `false`: refuse the report if the step waits for none yet (default: keep it until then). */
  early?: boolean;
  note?: string;
}

export interface ListOptions extends CallOptions {
  /** Sagas of each request, from 1 to 1,000 (default: 100). */
  pageSize?: number;
  phase?: Phase | "undo_failed";
  definition?: string;
  /** Sagas whose key contains this. */
  search?: string;
  labels?: Labels;
  startedAfter?: Date | number;
  startedBefore?: Date | number;
  /** Sagas of which an attempt raised a text that contains this. */
  error?: string;
}

export interface DecisionOptions extends CallOptions {
  /** Decisions of each request, from 1 to 1,000 (default: 100). */
  pageSize?: number;
  /** Decisions on the saga with this key. */
  key?: string;
  definition?: string;
  /** Decisions of this kind, for example `retry`. */
  decision?: string;
}

export interface EventOptions {
  key?: string;
  definition?: string;
  /** Continue behind this event (default: from now on). */
  lastEventId?: string;
  signal?: AbortSignal;
}

export interface ClientOptions {
  /** The token of a caller, an approver or an operator (default: none). */
  token?: string;
  /** Seconds for which a request, or the opening of a stream, is repeated until it is answered (default: 60). */
  timeout?: number;
  /** Decodes inputs and results, if the store of the service has a codec (default: they are `{"$codec": ..}`). */
  codec?: Codec;
  /** Reads large inputs and results, if the store of the service has a blob store (default: they are `{"$blob": ..}`). */
  blobs?: Blobs;
}

/** Decodes what the codec of the service's store encoded. */
export interface Codec {
  /** Gives the JSON of a value. */
  decode(data: Uint8Array): Uint8Array | Promise<Uint8Array>;
}

/** Reads what is in the blob store of the service's store. */
export interface Blobs {
  /** Gives a value by its key; `undefined` or `null` if there is none. */
  get(key: string): Uint8Array | null | undefined | Promise<Uint8Array | null | undefined>;
}

/** A saga that `start` started, or found. */
export class Run<D extends Definitions<D> = AnyDefinitions, S extends Name<D> = Name<D>> {
  private constructor();
  readonly key: string;
  readonly definition: S;
  readonly version: number;
  /** Whether this call started it. */
  readonly new: boolean;
  wait(options?: WaitOptions): Promise<Saga<Input<D, S>, Results<D, S>>>;
  get(): Promise<Saga<Input<D, S>, Results<D, S>> | null>;
  abort(options?: AbortOptions): Promise<boolean>;
}

/** A stream of events, to loop over. Once it is open, it continues after the last event when it was interrupted. */
export interface EventStream extends AsyncIterable<SagaEvent> {
  /** The id of the last event, or of the moment of the opening. */
  readonly lastEventId: string | undefined;
  /** Waits until the service has opened the stream: events from now on are seen. A loop does this by itself. */
  open(): Promise<this>;
  /** Ends the stream, also a loop over it. */
  close(): void;
  [Symbol.asyncIterator](): AsyncIterator<SagaEvent, void, undefined>;
}

/**
 * Starts and inspects sagas, and decides steps.
 *
 * Each call repeats its request until it is answered, for `timeout` seconds. It throws a `Problem` if the service
 * refuses it, `Unreachable` if no service answered, `InvalidArgument` if nothing was sent, or the reason of `signal`.
 */
export class Client<D extends Definitions<D> = AnyDefinitions> {
  /** @param url The service, without user and password, or several over one database: it begins with a random one, and asks the next one if one does not answer. */
  constructor(url: string | URL | (string | URL)[], options?: ClientOptions);
  /** The service that it asks now. */
  readonly url: string;
  /** Starts a saga, or finds the one with this key. It is stored when this returns. Throws `KeyConflict`, `NoSuchDefinition`, `InvalidRequest`. */
  start<S extends Name<D>>(definition: S, key: string, input?: Input<D, S>, options?: StartOptions): Promise<Run<D, S>>;
  /** Gives the saga with this key, or `null`. Throws `CannotDecode`. */
  get<S extends Name<D> = Name<D>>(key: string, options?: CallOptions): Promise<Saga<Input<D, S>, Results<D, S>> | null>;
  /** Waits until a saga is over. Throws `WaitTimeout`, `NoSuchSaga`, `CannotDecode`. */
  wait<S extends Name<D> = Name<D>>(key: string, options?: WaitOptions): Promise<Saga<Input<D, S>, Results<D, S>>>;
  /** Aborts a saga. Gives whether this call did it; `false` if it is over, or was aborted before. Throws `NoSuchSaga`. */
  abort(key: string, options?: AbortOptions): Promise<boolean>;
  /** Reports that a step is done. Throws `StepNotWaiting`, `ConflictingReport`, `NoSuchSaga`, `Forbidden`. */
  complete(key: string, step: string, result?: unknown, options?: ReportOptions): Promise<void>;
  /** Reports that a step failed permanently. Throws what `complete` throws. */
  fail(key: string, step: string, error: string, options?: ReportOptions): Promise<void>;
  /** Lists sagas, the newest first, page by page. */
  list(options?: ListOptions): AsyncGenerator<SagaSummary, void, undefined>;
  /** Lists decisions on sagas that the token may see, the newest first, page by page. */
  decisions(options?: DecisionOptions): AsyncGenerator<Decision, void, undefined>;
  /** Follows events from now on. */
  events(options?: EventOptions): EventStream;
  /** Closes the connections that rest. */
  close(): void;
}

/** What a step's function is called with. */
export interface Task<I = any, R = Record<string, any>, Result = any, Item = any> {
  /** `trip/car`, or `trip/car/undo`. */
  readonly name: string;
  readonly attemptId: string;
  readonly definition: string;
  readonly key: string;
  /** Of a step that is there for items the name with the number of the item: `ship-2`. */
  readonly step: string;
  /** As the step was declared: `ship`, or `hotel/room` of an included saga. */
  readonly declaredStep: string;
  /** The number of the step's item, from 0; `null` if it has none. */
  readonly index: number | null;
  /** The key of the item, if the items are of an object. */
  readonly itemKey: string | null;
  /** The step's item; `null` if it has none. */
  readonly item: Item;
  /** What the saga that includes the step's saga gives to it, or `null`. */
  readonly given: any;
  readonly isCompensation: boolean;
  /** From 1. */
  readonly attempt: number;
  readonly input: I;
  /** The results of all steps that this one needs. That of an optional step which failed is `{"$failed": error}`. */
  readonly results: Partial<R>;
  /** In a compensation: what the step returned. */
  readonly result: Result;
  /** The key to pass to other services: the same for all attempts. */
  readonly idempotencyKey: string;
  readonly originalIdempotencyKey: string | null;
  /** The W3C trace context that the saga was started in: the parent of a span of this attempt. */
  readonly traceparent: string | null;
  readonly deadline: Date | null;
  /** Why the task is not wanted, if that was known when it was claimed; `null` if it is wanted. It does not abort `signal`. */
  readonly cancelled: "aborted" | "failed" | null;
  /** Aborted when the function should stop: `reason` is an `Aborted` or a `LeaseLost`. */
  readonly signal: AbortSignal;
  /** Reports how far it is: a number from 0 to 1, and a text for people. */
  progress(fraction: number, detail?: string): void;
}

export interface WorkerOptions {
  /** The token of a worker (default: none). */
  token?: string;
  /** Functions that run at once (default: 10). */
  concurrency?: number;
  /** Seconds after which another worker may have the task of a worker that is gone (default: 30). */
  lease?: number;
  /** Seconds that a request for tasks waits at the service, at most 30 (default: 20). */
  wait?: number;
  /** A name for people (default: of host and process). */
  name?: string;
  /** Where warnings go (default: `console`). They have no inputs and results. */
  logger?: { warn(text: string): void };
}

/**
 * Executes steps for a service: claims tasks, keeps their leases, calls functions and reports outcomes.
 *
 * A function that returns is done. `Fail` and `Retry` say that there was no effect. After any other error the
 * outcome is unknown: the task comes again with the same idempotency key.
 */
export class Worker<D extends Definitions<D> = AnyDefinitions> {
  /** @param url The service, without user and password, or several over one database: it begins with a random one, and asks the next one if one does not answer. */
  constructor(url: string | URL | (string | URL)[], options?: WorkerOptions);
  readonly url: string;
  readonly concurrency: number;
  readonly lease: number;
  readonly wait: number;
  readonly name: string;
  /** Declares the function of a step. */
  step<S extends Name<D>, P extends Name<Results<D, S>>>(
    saga: S, step: P,
    run: (task: Task<Input<D, S>, Results<D, S>, null, Item<D, S, P>>) => Returned<D, S, P> | Promise<Returned<D, S, P>>,
  ): this;
  /** Declares the function that undoes a step. Its task has the step's `result`. */
  compensation<S extends Name<D>, P extends Name<Results<D, S>>>(
    saga: S, step: P, run: (task: Task<Input<D, S>, Results<D, S>, Returned<D, S, P>, Item<D, S, P>>) => unknown,
  ): this;
  /**
   * Works until `stop`, or until `signal` is aborted; then running functions end and are reported.
   * Throws a `Problem` if the service refuses the worker, for example its token.
   */
  run(options?: { signal?: AbortSignal }): Promise<void>;
  /**
   * Claims nothing more. Tasks that have not begun return to the service. `run` awaits the answer to a claim that is
   * under way: the service gives it at once, as a rule. If the service is older, or a balancer leads the request that
   * ends the claim elsewhere, it takes `wait` seconds at most and little more.
   */
  stop(): void;
}

/** The base of all errors of this package. */
export class SagasError extends Error {
  constructor(message?: string, options?: { cause?: unknown });
}
/** A value that you passed is not valid. Nothing was sent. */
export class InvalidArgument extends SagasError {}
/** No service answered in time. The request may have been carried out: repeat it with the same key. */
export class Unreachable extends SagasError {}
/** The codec or the blob store that you passed cannot read a value of the service. */
export class CannotDecode extends SagasError {}
/** The saga was not over in time. It continues. */
export class WaitTimeout extends SagasError {}
/** Throw it in a function that had no effect, if retries are useless. */
export class Fail extends SagasError {}
/** Throw it in a function that had no effect, if another attempt may help. */
export class Retry extends SagasError {}
/** Throw it in a function if the outcome is unknown. Other errors mean the same; after a ReferenceError, or if a module is missing, the task also waits for a retry by an operator. */
export class Unknown extends SagasError {}
/** The reason of a task's signal: the saga is to be undone. */
export class Aborted extends SagasError {}

/** The service refused a request. */
export class Problem extends SagasError {
  /** The HTTP status. */
  readonly status: number;
  /** The name of the problem, which never changes. */
  readonly problem: string;
  /** The parameter, or the place in the body, that is not valid. */
  readonly field: string | undefined;
}
/** The token is missing, unknown or expired. */
export class Unauthorized extends Problem {}
/** The token does not allow the request. */
export class Forbidden extends Problem {}
/** No saga has the key, or the token must not see it. */
export class NoSuchSaga extends Problem {}
/** The service has no such definition. */
export class NoSuchDefinition extends Problem {}
/** No task has this attempt id. */
export class NoSuchTask extends Problem {}
/** The key has another saga, or another input. */
export class KeyConflict extends Problem {}
/** The step, or the saga, waits for no such report. */
export class StepNotWaiting extends Problem {}
/** Another outcome was reported first, and counts. */
export class ConflictingReport extends Problem {}
/** The saga is over. */
export class SagaOver extends Problem {}
/** The saga undoes a child, so it is not aborted. */
export class NotAbortable extends Problem {}
/** The saga is open, has completed, or is a child, so it is not restarted. */
export class NotRestartable extends Problem {}
/** Another worker has the task, or an operator must decide. */
export class LeaseLost extends Problem {}
/** The lease was not issued to this worker for this task. */
export class InvalidLease extends Problem {}
/** The request, the key, the input, a label or the size is not valid. `field` names the place. */
export class InvalidRequest extends Problem {}
