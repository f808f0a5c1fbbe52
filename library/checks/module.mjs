// Runs each example of a list of lines FORM PARTY SCRIPT WANTED STATUS by the WebAssembly module, in Node, and compares what is handed
// out; then the calls of a file of calls by the library for C, which has for each a form, a party, its bytes, the status and the text's
// SHA-1.
import { createHash } from 'node:crypto';
import { readFileSync } from 'node:fs';
import { createRequire } from 'node:module';

const { Runner, Fed } = createRequire(import.meta.url)('../page/runner.js');
const [wasm, list, calls] = process.argv.slice(2);
const module = new WebAssembly.Module(readFileSync(wasm));
const runner = new Runner(module);
let same = 0;
const other = [];

function tell(isSame, name) {
  if (isSame) same += 1;
  else other.push(name);
}

tell(WebAssembly.Module.imports(module).length === 0, 'imports');
tell(runner.profile() === 1, 'profile');
for (const line of readFileSync(list, 'utf8').split('\n').filter(Boolean)) {
  const [form, party, script, wanted, status] = line.split(' ');
  const got = runner.call(form, readFileSync(script), party);
  tell(got.status === Number(status) && Buffer.compare(Buffer.from(got.bytes), readFileSync(wanted)) === 0, script);
}
// A script in pieces of so many bytes: the status and the text.
function fed(script, size) {
  const run = runner.open();
  const parts = [];
  let status = Fed.GOES_ON;
  for (let at = 0; at < script.length && status === Fed.GOES_ON; at += size) {
    status = run.feed(script.subarray(at, at + size));
    parts.push(run.text());
  }
  if (status === Fed.GOES_ON) status = run.finish();
  parts.push(run.text());
  run.close();
  return { status, text: Buffer.concat(parts) };
}

for (const line of readFileSync(list, 'utf8').split('\n').filter(line => line.startsWith('run '))) {
  const [, , script, wanted, status] = line.split(' ');
  for (const size of [1, 7, 4096]) {
    const got = fed(readFileSync(script), size);
    tell(got.status === Number(status) && Buffer.compare(got.text, readFileSync(wanted)) === 0, `${script} in pieces of ${size}`);
  }
}
for (const line of calls ? readFileSync(calls, 'utf8').split('\n').filter(Boolean) : []) {
  const { form, party, bytes, status, sha1 } = JSON.parse(line);
  const got = runner.call(form, Buffer.from(bytes, 'base64'), party);
  tell(got.status === status && createHash('sha1').update(got.bytes).digest('hex') === sha1, `${form} ${sha1}`);
}
other.slice(0, 10).forEach(name => console.log(`other: ${name}`));
console.log(`${same} the same, ${other.length} other; ${(runner.held / 1048576).toFixed(1)} MiB held`);
process.exitCode = other.length === 0 ? 0 : 1;
