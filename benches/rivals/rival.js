'use strict';
// Prints the nanoseconds of a call that doesn't fail by promise-retry.
const promiseRetry = require('promise-retry');

const COUNT = Number(process.argv[2]);

(async () => {
  const found = [];
  for (let run = 0; run < 15; run += 1) {
    const begun = process.hrtime.bigint();
    for (let i = 0; i < COUNT; i += 1) {
      await promiseRetry((again) => Promise.resolve(i).catch(again), { retries: 8, minTimeout: 100, maxTimeout: 5000 });
    }
    found.push(Number(process.hrtime.bigint() - begun) / COUNT);
  }
  console.log('promise-retry', Math.round(Math.min(...found)));
})();
