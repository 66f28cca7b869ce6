'use strict';
// Tests the recipe of a journal in Node: `ZSCHED_RECIPE=FILE node --test`.
const assert = require('node:assert');
const { spawnSync } = require('node:child_process');
const fs = require('node:fs');
const os = require('node:os');
const path = require('node:path');
const { test } = require('node:test');
const { Schedule } = require('zsched');
const { run } = require(process.env.ZSCHED_RECIPE);

const POLICY = '(exponential(10) && recurs(3))';
let files = 0;

function fresh() {
  files += 1;
  return path.join(fs.mkdtempSync(path.join(os.tmpdir(), 'zsched-journal-')), `${files}.journal`);
}

function failed() {
  throw new Error('busy');
}

/** Runs a job in a process that is killed in its attempt with a number. Returns how many attempts there were. */
function killed(file, number, policy = POLICY, options = '{}') {
  const text = `let made = 0;
    require(process.env.ZSCHED_RECIPE).run(${JSON.stringify(file)}, ${JSON.stringify(policy)}, () => {
      made += 1;
      console.log(made);
      if (made === ${number}) { process.kill(process.pid, 'SIGKILL'); }
      throw new Error('busy');
    }, ${options}).catch(() => {});`;
  return spawnSync('node', ['-e', text]).stdout.toString().split('\n').length - 1;
}

test('a journal is written as described', async () => {
  const [file, said] = [fresh(), []];
  assert.strictEqual(await run(file, POLICY, (number) => {
    said.push(fs.readFileSync(file, 'latin1').split('\n'));
    return number < 3 ? failed() : 'ready';
  }), 'ready');
  const found = said[1];
  const words = found[2].split(' ').slice(1).map(BigInt);
  assert.deepStrictEqual(new Schedule(POLICY, words).state, BigUint64Array.from(words));
  const forms = [/^zsched journal 1$/, /^schedule \(exponential\(10\) && recurs\(3\)\)$/, /^state [\d ]+$/,
    /^attempts 2$/, /^ended [1-9]\d{7,}$/, /^begin [1-9]\d{7,}$/, /^at \d{19}$/,
    /^error killed in attempt 2$/, /^end$/, /^$/];
  assert(found.length === forms.length && found.every((line, place) => forms[place].test(line)), found.join('\n'));
  assert.deepStrictEqual(fs.readdirSync(path.dirname(file)), []);
});

test('a job that gave up says so now and later', async () => {
  const file = fresh();
  let attempts = 0;
  const job = () => { attempts += 1; failed(); };
  await assert.rejects(run(file, POLICY, job), { message: 'busy' });
  for (let i = 0; i < 2; i += 1) {
    await assert.rejects(run(file, POLICY, job), {
      message: `zsched: journal ${file}: gave up after 4 attempts: Error: busy` });
  }
  assert.strictEqual(attempts, 4);
});

test('a killed attempt counts', async () => {
  const file = fresh();
  let attempts = 0;
  for (let i = 0; i < 6; i += 1) {
    attempts += killed(file, 1);
  }
  assert.strictEqual(attempts, 4);
  await assert.rejects(run(file, POLICY, failed), /gave up after 4 attempts: killed in attempt 4$/);
  const coded = `${POLICY}.whileInput(>= 500)`;
  await assert.rejects(run(fresh(), coded, failed), /which one a killed attempt has$/);
  const other = fresh();
  assert.strictEqual(killed(other, 2, coded, '{ codeOf: () => 503, killed: 404 }'), 2);
  assert.strictEqual(killed(other, 1, coded, '{ killed: 404 }'), 0);
  const again = fresh();
  assert.deepStrictEqual([1, 2, 3, 4, 5].map(() => killed(again, 1, coded, '{ killed: 503 }')), [1, 1, 1, 1, 0]);
});

test('a full disk begins no attempt', async () => {
  const file = fresh();
  fs.symlinkSync('/dev/full', `${file}.new`);
  await assert.rejects(run(file, POLICY, () => assert.fail('an attempt')), { code: 'ENOSPC' });
  assert.deepStrictEqual(fs.readdirSync(path.dirname(file)), []);
});

test('a file that is no journal of this job is a named error, and unchanged', async () => {
  const file = fresh();
  killed(file, 2);
  const whole = fs.readFileSync(file, 'latin1');
  fs.writeFileSync(`${file}.new`, whole.slice(0, 40));
  for (const [text, why] of [
    ['', 'empty'], ['zsched journal 2\n', 'another version'], ['zsched jour', 'cut'], ['zsched journal 1', 'cut'],
    [whole.slice(0, -1), 'cut'], [whole.slice(0, 60), 'cut'], ['[1, 2]\n', 'no journal'],
    [`${whole}end\n`, 'no journal'], [whole.replace('attempts', 'attempt'), 'no journal'],
    [whole.replace('ended ', 'ended 99999999999999999999'), 'no journal'],
    [whole.replace('recurs(3)', 'recurs(4)'), 'another policy'],
    [whole.replace(/state \d+/, 'state 7'), 'another version'],
    [whole.replace(/state \d+ /, 'state '), 'another version'],
  ]) {
    fs.writeFileSync(file, text, 'latin1');
    const ended = run(file, POLICY, () => assert.fail('an attempt'));
    await assert.rejects(ended, { message: `zsched: journal ${file}: ${why}` });
    assert.strictEqual(fs.readFileSync(file, 'latin1'), text);
  }
  fs.writeFileSync(file, whole);
  let attempts = 0;
  await assert.rejects(run(file, POLICY, () => { attempts += 1; failed(); }), /^Error: busy$/);
  assert.strictEqual(attempts, 2);
});

test('a clock that was set back waits the whole wait again', async () => {
  const file = fresh();
  killed(file, 1, '(spaced(200) && recurs(3))');
  for (const [at, wanted] of [[BigInt(Date.now() + 9e9) * 1000000n, 190], [0n, 0]]) {
    fs.writeFileSync(file, fs.readFileSync(file, 'latin1').replace(/at \d+\n/, `at ${at}\n`), 'latin1');
    const begun = Date.now();
    killed(file, 1, '(spaced(200) && recurs(3))');
    assert(Date.now() - begun >= wanted);
    assert.match(fs.readFileSync(file, 'latin1'), /error killed in attempt/);
  }
});
