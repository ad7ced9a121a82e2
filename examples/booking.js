#!/usr/bin/env node
// A booking service that lets `sagas drive` decide: what is done next, and how a trip ends that failed.
//
//     node examples/booking.js FOLDER
//
// The same service as booking.py: two trips, and a tour with one seat. FOLDER keeps trips.log, which `sagas drive` writes, and
// bookings.json, the service's own records. It may be killed at any moment and started again.
"use strict";
const { spawn } = require("node:child_process");
const fs = require("node:fs");
const path = require("node:path");
const readline = require("node:readline");

const TOP = path.dirname(__dirname);
const PROGRAM = process.env.SAGAS || path.join(TOP, "sagas");
const [TRIPS, SEATS] = [2, 1];

// The service's own records: what was booked and cancelled, in order. To do a step twice, at whatever attempt, changes nothing.
class Bookings {
  constructor(file) {
    this.file = file;
    this.entries = fs.existsSync(file) ? JSON.parse(fs.readFileSync(file)) : [];
  }

  run(trip, name) { // whether the step is booked
    const others = this.entries.filter(([what, of, step]) => what === "booked" && step === "tour" && of !== trip);
    return (name !== "tour" || others.length < SEATS) && this.note("booked", trip, name);
  }

  undo(trip, name) { return this.note("cancelled", trip, name); } // whether it is cancelled

  note(...entry) {
    if (!this.entries.some((known) => `${known}` === `${entry}`)) { // else it was done before
      this.entries.push(entry);
      fs.writeFileSync(`${this.file}.new`, JSON.stringify(this.entries));
      fs.renameSync(`${this.file}.new`, this.file); // all of it or nothing; in a true service, a transaction
    }
    return true;
  }
}

// `sagas drive` as a child process: a line is written to it, and a line comes back.
function started(log, ...definitions) {
  const child = spawn(PROGRAM, ["drive", "--log", log, ...definitions], { stdio: ["pipe", "pipe", "inherit"] });
  const lines = readline.createInterface({ input: child.stdout })[Symbol.asyncIterator]();
  const ask = async (request) => {
    child.stdin.write(`${JSON.stringify(request)}\n`);
    const { value, done } = await lines.next();
    if (done) throw new Error("booking: sagas drive has ended");
    return JSON.parse(value);
  };
  return { ask, end: () => child.stdin.end() };
}

// Whether a task was done. What is not answered in time may be done: it is asked again, and nothing is reported before there is an answer.
function isDone(task, saga, name, bookings) {
  for (;;) try { return bookings[task](saga, name); } catch (error) { if (error.code !== "ETIMEDOUT") throw error; }
}

// Does a task and reports how it went. A plan is adopted already, and asks for nothing.
async function perform({ attempt, task, saga, step, name }, ask, bookings) {
  if (task === "plan") return;
  const done = isDone(task, saga, name, bookings);
  console.log(`trip ${saga}: ${task} ${name}: ${done ? "done" : "failed"}`);
  await ask({ do: "report", attempt, task, saga, step, outcome: done ? "ok" : "fail" });
}

async function main(folder) {
  const bookings = new Bookings(path.join(folder, "bookings.json"));
  const { ask, end } = started(path.join(folder, "trips.log"), path.join(TOP, "examples", "booking.toml"));
  // Tasks that were begun before a restart: whether they were done, the records say.
  for (const task of (await ask({ do: "busy" })).busy) await perform(task, ask, bookings);
  for (let saga = 0; saga < TRIPS; saga++) await ask({ do: "open", name: "trip", saga }); // refused where it was opened before
  for (let task; (task = await ask({ do: "next" })).task !== "none"; ) await perform(task, ask, bookings);
  for (let saga = 0; saga < TRIPS; saga++) {
    const { phase, states } = await ask({ do: "show", saga });
    console.log(`trip ${saga}: ${phase}: ${states.join(" ")}`);
  }
  end();
}

if (require.main === module) main(process.argv[2]);
module.exports = { Bookings, main };
