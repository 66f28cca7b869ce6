'use strict';
// A real retry: a client calls a server on this machine until it is ready. It is busy at first.
const http = require('node:http');
const { Retry } = require('./zsched.js');

const BUSY = 3;
const fetching = new Retry('((exponential(20) || spaced(100)) && recurs(5)).whileInput(= 503)', {
  inputOf: (error) => error.code,
});

async function main() {
  let requests = 0;
  const server = http.createServer((_, response) => {
    requests += 1;
    response.writeHead(requests <= BUSY ? 503 : 200).end('ready');
  });
  await new Promise((resolve) => server.listen(0, '127.0.0.1', resolve));
  const begun = process.hrtime.bigint();
  const text = await fetching.call(async () => {
    const response = await fetch(`http://127.0.0.1:${server.address().port}/`);
    if (!response.ok) {
      throw Object.assign(new Error(`status ${response.status}`), { code: response.status });
    }
    return response.text();
  });
  console.log(`${text} after ${requests} attempts`);
  server.closeAllConnections();
  server.close();
  if (process.hrtime.bigint() - begun < 140000000n) {
    throw new Error('it did not wait');
  }
}

main();
