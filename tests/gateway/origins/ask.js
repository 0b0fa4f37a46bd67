// Asks with Node's own client: node ask.js PORT CASES; CASES is JSON. Prints the answers as JSON.
'use strict';
const crypto = require('crypto');
const http = require('http');
const [port, cases] = process.argv.slice(2);

const ask = ({ method, path, fields, content, chunked, trailers }) => new Promise((resolve) => {
  const where = { host: '127.0.0.1', port: Number(port), agent: false, timeout: 20000 };
  const options = { ...where, method, path, headers: fields };
  const hints = [];
  const request = http.request(options, (response) => {
    const sum = crypto.createHash('sha256');
    response.on('data', (piece) => sum.update(piece));
    response.on('error', () => resolve({ broken: true }));
    response.on('end', () => resolve({
      status: response.statusCode, fields: response.rawHeaders, sum: sum.digest('hex'),
      trailers: response.rawTrailers, hints, complete: response.complete,
    }));
  });
  request.on('information', (it) => hints.push(it.statusCode));
  request.on('error', () => resolve({ broken: true }));
  if (chunked) {
    for (const piece of chunked) request.write(piece);
    if (trailers) request.addTrailers(trailers);
    request.end();
  } else {
    request.end(content);
  }
});

(async () => {
  const answers = [];
  for (const it of JSON.parse(cases)) answers.push(await ask(it));
  process.stdout.write(JSON.stringify(answers));
})();
