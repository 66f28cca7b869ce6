'use strict';
// A job that goes on after a restart: its state is in a file, as the journals of Python and Go have it.
//
// The file is written before each attempt, as if that had failed at once, so a killed attempt counts. One process at a
// time: flock -n FILE.lock node example_journal.js FILE
const fs = require('node:fs');
const path = require('node:path');
const { setTimeout: sleep } = require('node:timers/promises');
const { Schedule } = require('./zsched.js');

const [FIRST, NUMBER] = ['zsched journal 1\n', '(?:0|[1-9]\\d*)'];
const FORM = new RegExp(`^${FIRST}schedule ([ -~]+)\nstate (${NUMBER}(?: ${NUMBER})*)\nattempts (${NUMBER})\n`
  + `ended (${NUMBER})\nbegin (${NUMBER}|none)\nat (${NUMBER})\nerror ([ -~]+)\nend\n$`);
const LETTERS = 200;

const nanos = (millis) => BigInt(Math.floor(millis)) * 1000000n + BigInt(Math.round((millis % 1) * 1e6));
const millis = (digits) => Number(BigInt(digits) / 1000000n) + Number(BigInt(digits) % 1000000n) / 1e6;

function syncFolder(file) {
  const folder = fs.openSync(path.dirname(file), 'r');
  fs.fsyncSync(folder);
  fs.closeSync(folder);
}

/** Replaces the file: all of it is there, or the old one. */
function write(file, schedule, attempts, ended, begin, error) {
  const said = Array.from(error).slice(0, LETTERS).join('').replace(/[^ -~]/gu, '?').trim() || '?';
  const fresh = fs.openSync(`${file}.new`, 'w');
  try {
    fs.writeSync(fresh, `${FIRST}schedule ${schedule.text}\nstate ${schedule.state.join(' ')}\nattempts ${attempts}\n`
      + `ended ${nanos(ended)}\nbegin ${begin === null ? 'none' : nanos(begin)}\nat ${BigInt(Date.now()) * 1000000n}\n`
      + `error ${said}\nend\n`);
    fs.fsyncSync(fresh);
  } catch (fault) {
    fs.rmSync(`${file}.new`);
    throw fault;
  } finally {
    fs.closeSync(fresh);
  }
  fs.renameSync(`${file}.new`, file);
  syncFolder(file);
}

/** Returns what the file says, or null if there is none. Throws an error that says why it can't be used. */
function read(file, policy) {
  if (!fs.existsSync(file)) {
    return null;
  }
  const refuse = (why) => { throw new Error(`zsched: journal ${file}: ${why}`); };
  const text = fs.readFileSync(file, 'latin1');
  const [, version = '1'] = text.match(/^zsched journal (0|[1-9]\d*)(?:\n|$)/) ?? [];
  if (!text || version !== '1') {
    refuse(text ? 'another version' : 'empty');
  }
  if (FIRST.startsWith(text) || (text.startsWith(FIRST) && !text.endsWith('\nend\n'))) {
    refuse('cut');
  }
  const [, schedule, words, attempts, ended, begin, at, error] = text.match(FORM) ?? refuse('no journal');
  const state = words.split(' ').map(BigInt);
  if ([...state, BigInt(attempts), BigInt(ended), BigInt(begin === 'none' ? 0 : begin)].some((it) => it >= 2n ** 64n)) {
    refuse('no journal');
  }
  if (schedule !== policy) {
    refuse('another policy');
  }
  try {
    const found = new Schedule(policy, state);
    return { schedule: found, attempts: Number(attempts), ended: millis(ended), begin, at: millis(at), error };
  } catch {
    return refuse('another version');
  }
}

/**
 * Calls a job until it doesn't throw, also over restarts. `killed` is the code that a killed attempt counts as: a
 * policy that reads codes needs one.
 */
async function run(file, policy, job, { codeOf = () => 0, killed } = {}) {
  if (killed === undefined && /whileInput|identity/.test(policy)) {
    throw new Error('zsched: the policy reads codes: say which one a killed attempt has');
  }
  const found = read(file, policy);
  if (found?.begin === 'none') {
    throw new Error(`zsched: journal ${file}: gave up after ${found.attempts} attempts: ${found.error}`);
  }
  // A clock that was set back waits again.
  const elapsed = found ? found.ended + Math.max(0, Date.now() - found.at) : 0;
  const start = performance.now() - elapsed;
  let [schedule, begin] = [found?.schedule ?? new Schedule(policy), found ? millis(found.begin) : 0];
  for (let number = (found?.attempts ?? 0) + 1; ; number += 1) {
    while (performance.now() < start + begin) {
      await sleep(Math.min(start + begin - performance.now(), 2 ** 31 - 1));
    }
    const began = number === 1 ? 0 : performance.now() - start;
    const asKilled = new Schedule(schedule);
    const next = asKilled.plan(began, began, killed ?? 0);
    write(file, asKilled, number, began, next, `killed in attempt ${number}`);
    let value;
    try {
      value = await job(number);
    } catch (error) {
      const ended = performance.now() - start;
      begin = schedule.plan(began, ended, codeOf(error));
      write(file, schedule, number, ended, begin, String(error));
      if (begin === null) {
        throw error;
      }
      continue;
    }
    fs.rmSync(file);
    syncFolder(file);
    return value;
  }
}

module.exports = { read, run };

if (require.main === module) {
  run(process.argv[2], '(spaced(20) && recurs(5))', async (number) => {
    if (number < 4) {
      throw new Error('busy');
    }
    return `ready after ${number} attempts`;
  }).then(console.log);
}
