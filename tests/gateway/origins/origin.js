// An origin on Node's own server: node origin.js PORT FOLDER
'use strict';
const crypto = require('crypto');
const fs = require('fs');
const http = require('http');
const [port, folder] = process.argv.slice(2);

const pairs = (lines) => {
  const found = [];
  for (let at = 0; at < lines.length; at += 2) found.push([lines[at].toLowerCase(), lines[at + 1]]);
  return found;
};

const answers = {
  '/': (request, response) => response.end('here\n'),
  '/chunked': (request, response) => {
    for (let at = 0; at < 5; at++) response.write('x'.repeat(1000));
    response.end();
  },
  '/trailers': (request, response) => {
    response.setHeader('Trailer', 'Server-Timing');
    response.write('hello');
    response.addTrailers({ 'Server-Timing': 'a' });
    response.end();
  },
  '/close': (request, response) => {
    response.setHeader('Connection', 'close');
    response.end('y'.repeat(5000));
  },
  '/empty': (request, response) => response.end(),
  '/lines': (request, response) => {
    response.setHeader('Set-Cookie', ['a=1', 'b=2; Path=/']);
    response.setHeader('X-One', ['1', '2']);
    response.end('ok');
  },
  '/hints': (request, response) => {
    response.writeEarlyHints({ link: '</a.css>; rel=preload; as=style' });
    response.end('ok');
  },
  '/slow': (request, response) => {
    response.setHeader('Content-Length', 50);
    let left = 5;
    const timer = setInterval(() => {
      response.write('0123456789');
      if (--left === 0) { clearInterval(timer); response.end(); }
    }, 100);
  },
};

http.createServer((request, response) => {
  const sum = crypto.createHash('sha256');
  let length = 0;
  request.on('data', (piece) => { sum.update(piece); length += piece.length; });
  request.on('end', () => {
    const path = request.url.split('?')[0];
    if (answers[path]) return answers[path](request, response);
    if (path === '/echo') {
      const told = {
        method: request.method, target: request.url, fields: pairs(request.rawHeaders), length,
        sum: sum.digest('hex'), trailers: pairs(request.rawTrailers).map((it) => it.join(': ')),
      };
      response.setHeader('Content-Type', 'application/json');
      return response.end(JSON.stringify(told));
    }
    if (path.startsWith('/status/')) {
      response.statusCode = Number(path.slice(8));
      return response.end([204, 304].includes(response.statusCode) ? undefined : 'status');
    }
    if (path.startsWith('/f/') && fs.existsSync(folder + path)) {
      const tag = `"${path.slice(3)}"`;
      response.setHeader('ETag', tag);
      if (request.headers['if-none-match'] === tag) {
        response.statusCode = 304;
        return response.end();
      }
      const content = fs.readFileSync(folder + path);
      response.setHeader('Content-Length', content.length);
      return response.end(content);
    }
    response.statusCode = 404;
    return response.end('no such path\n');
  });
}).listen(Number(port), '127.0.0.1');
