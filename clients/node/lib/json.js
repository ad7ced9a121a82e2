// JSON whose integers keep all their digits: one beyond 2^53 is read as a bigint, and a bigint is written as an integer.

import { InvalidArgument } from "./errors.js";

const LONG = /\d{16}/;
const NUMBER = /-?\d+(?:\.\d+)?(?:[eE][+-]?\d+)?/y;
const INTEGER = /^-?\d+$/;

/** Reads a text of JSON. */
export function parse(text) {
  if (!LONG.test(text)) return JSON.parse(text);
  const mark = `bigint:${Math.random()}:`;
  const marked = withMarks(text, mark);
  if (marked === text) return JSON.parse(text);
  return JSON.parse(marked, (_, value) =>
    typeof value === "string" && value.startsWith(mark) ? BigInt(value.slice(mark.length)) : value);
}

// The text in which each integer that a number cannot hold is a string with a mark.
function withMarks(text, mark) {
  const parts = [];
  let from = 0;
  for (let at = 0; at < text.length;) {
    const letter = text[at];
    if (letter === '"') {
      at = endOfString(text, at);
    } else if (letter === "-" || (letter >= "0" && letter <= "9")) {
      NUMBER.lastIndex = at;
      const number = NUMBER.exec(text)?.[0] ?? letter;
      if (INTEGER.test(number) && !Number.isSafeInteger(Number(number))) {
        parts.push(text.slice(from, at), `"${mark}${number}"`);
        from = at + number.length;
      }
      at += number.length;
    } else {
      at += 1;
    }
  }
  return parts.length ? parts.join("") + text.slice(from) : text;
}

function endOfString(text, start) {
  for (let at = start + 1; ;) {
    const end = text.indexOf('"', at);
    if (end < 0) return text.length; // JSON.parse says what is wrong
    let slashes = end;
    while (text[slashes - 1] === "\\") slashes -= 1;
    if ((end - slashes) % 2 === 0) return end + 1;
    at = end + 1;
  }
}

/** Writes a value as JSON; `undefined` is written as null. Throws `InvalidArgument` if JSON cannot hold it. */
export function write(value) {
  if (value === undefined) return "null";
  const bigs = [];
  const mark = `bigint:${Math.random()}:`;
  let text;
  try {
    text = JSON.stringify(value, (_, inner) => {
      if (typeof inner === "number" && !Number.isFinite(inner)) throw new InvalidArgument(`${inner} is not a number of JSON. Send null, or a text`);
      if (typeof inner !== "bigint") return inner;
      bigs.push(inner);
      return mark + inner;
    });
  } catch (error) {
    if (error instanceof InvalidArgument) throw error;
    throw new InvalidArgument(`the value cannot be written as JSON: ${error.message}`, { cause: error });
  }
  if (text === undefined) throw new InvalidArgument(`a ${typeof value} cannot be written as JSON. Send an object, an array, a text, a number, a boolean or null`);
  return bigs.length ? text.replaceAll(new RegExp(`"${mark}(-?\\d+)"`, "g"), "$1") : text;
}
