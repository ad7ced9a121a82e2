/** The planner in process: the proved calls as a module of WebAssembly, for Node, Deno, Bun and browsers. */

/** A plan, an accepted answer or an accepted log. */
export const OK: 0;
/** No plan is feasible, the answer is wrong, or the log has an event that is not allowed. */
export const REJECTED: 1;
/** A text is not valid; `text` says where and why. */
export const INVALID: 3;

export interface Answer {
  readonly status: typeof OK | typeof REJECTED | typeof INVALID;
  readonly text: string;
}

/** A text of the documented formats. */
export type Text = string | Uint8Array;

/** Each call throws a `RangeError` if memory is refused; later calls go on. */
export interface Planner {
  /** A plan of least cost for a saga in this state, with its certificate. */
  plan(definition: Text, sagaCase: Text): Answer;
  /** Verifies an answer of any planner. */
  check(definition: Text, sagaCase: Text, answer: Text): Answer;
  /** Audits a log over its definitions, in their order. */
  audit(log: Text, ...definitions: Text[]): Answer;
  /** Draws a definition in Graphviz's language, with the states of a case and the marks of an answer if given. */
  draw(definition: Text, sagaCase?: Text, answer?: Text): Answer;
}

/**
 * Loads the module.
 * @param module What to load (default: the file of the package): its bytes, or a `WebAssembly.Module`.
 */
export function load(module?: object): Promise<Planner>;
