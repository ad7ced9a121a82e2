// Prints a plan, as plan.c does. It calls the WebAssembly module: node plan.mjs DEFINITION CASE
import { readFileSync } from 'node:fs';
import { INVALID, load } from '../../dist/sagas.mjs';

const sagas = await load();
const { status, text } = sagas.plan(...process.argv.slice(2).map(path => readFileSync(path)));
(status === INVALID ? process.stderr : process.stdout).write(text);
process.exitCode = status;
