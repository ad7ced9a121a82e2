// Answers questions by sagas.mjs, for test_module.py: node answers.mjs SAGAS.MJS QUESTIONS. A line of JSON, [[call, [length, ..]], ..], and then
// all texts, one behind the other; the answers are JSON, [[status, text in base64], ..].
import { readFileSync } from 'node:fs';
import { pathToFileURL } from 'node:url';

const { load } = await import(pathToFileURL(process.argv[2]));
const sagas = await load();
const file = readFileSync(process.argv[3]);
let at = file.indexOf(10) + 1;

function answer([call, lengths]) {
  const texts = lengths.map(length => new Uint8Array(file.buffer, file.byteOffset + (at += length) - length, length));
  const name = call.startsWith('draw') ? 'draw' : call === 'audit_all' ? 'audit' : call;
  try {
    const { status, text } = sagas[name](...texts);
    return [status, Buffer.from(text).toString('base64')];
  } catch (error) {
    return [4, Buffer.from(String(error)).toString('base64')];
  }
}

process.stdout.write(JSON.stringify(JSON.parse(file.subarray(0, at - 1)).map(answer)));
