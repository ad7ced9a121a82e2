// What needs no service: JSON that loses no digit, and the reader of events.

import assert from "node:assert/strict";
import { test } from "node:test";
import { InvalidArgument, Problem, KeyConflict } from "../index.js";
import { problemOf } from "../lib/errors.js";
import { EventReader } from "../lib/events.js";
import { parse, write } from "../lib/json.js";
import { shortened } from "../lib/task.js";

test("integers keep their digits, and texts are left alone", () => {
  const texts = [
    "9007199254740993", "-9007199254740993", '{"a":[1,9007199254740993,2.5],"b":"9007199254740993"}',
    '["\\\\",12345678901234567890,"\\\\\\"12345678901234567890"]', '"1234567890123456789"', '{"1234567890123456789":1}', "9007199254740991",
  ];
  for (const text of texts) assert.equal(write(parse(text)), text);
  assert.equal(parse("[9007199254740993]")[0], 9007199254740993n);
  assert.equal(parse("1234567890123456789.5"), 1234567890123456789.5);
  assert.equal(parse("1e20"), 1e20);
  assert.equal(write([1n, "bigint:1"]), '[1,"bigint:1"]');
  assert.throws(() => parse('[12345678901234567890,"'), SyntaxError);
});

test("what JSON cannot hold is refused", () => {
  assert.equal(write(undefined), "null");
  const circle = {};
  circle.self = circle;
  for (const value of [NaN, { a: Infinity }, () => 1, Symbol("x"), circle]) assert.throws(() => write(value), InvalidArgument);
});

test("events are read from parts of any size", () => {
  const text = 'retry: 2000\nid: b-1\n: open\n\nid: b-2\nevent: saga_started\ndata: {"key": "ü"}\n\n: \n\nid: b-3\r\nevent: missed\r\ndata: {}\r\n\r\n';
  const whole = [...new EventReader().read(text)];
  const reader = new EventReader();
  const parts = [...text].flatMap((letter) => [...reader.read(letter)]);
  assert.deepEqual(whole.map(({ id }) => id), ["b-1", "b-2", undefined, "b-3"]);
  assert.deepEqual(whole[1], { id: "b-2", event: "saga_started", data: '{"key": "ü"}' });
  assert.deepEqual(parts.filter(({ data }) => data), whole.filter(({ data }) => data));
});

test("an answer is an error by the name of its problem, also one of a proxy", () => {
  const error = problemOf(409, JSON.stringify({ type: "urn:sagas:problem:KeyConflict", detail: "no" }));
  assert.ok(error instanceof KeyConflict && error instanceof Problem);
  assert.deepEqual([error.name, error.status, error.problem], ["KeyConflict", 409, "KeyConflict"]);
  assert.deepEqual([problemOf(502, "<html>").name, problemOf(400, "").status], ["Problem", 400]);
});

test("a text is cut between characters", () => {
  assert.equal(shortened("😀😀", 1), "😀");
  assert.equal(shortened("a\ud83d", 9), "a\ufffd");
});
