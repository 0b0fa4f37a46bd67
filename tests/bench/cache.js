// Times hits of http-cache-semantics over a Map, as `got` and `make-fetch-happen` use it: prints the nanoseconds of one,
// the least of some rounds.
//
//     node cache.js RESPONSES ROUNDS LOOKUPS
"use strict";
const { dirname, join } = require("path");

// Debian's package, or what npm brings.
const places = ["/usr/share/nodejs", join(dirname(process.execPath), "../lib/node_modules/npm/node_modules")];
const found = require.resolve("http-cache-semantics", { paths: places });
const CachePolicy = require(found);
const { version } = require(join(dirname(found), "package.json"));

const IN_TURN = 1000;
const [count, rounds, lookups] = process.argv.slice(2).map(Number);
const headers = {
  host: "www.example.com",
  "user-agent": "Mozilla/5.0 (X11; Linux x86_64; rv:132.0) Gecko/20100101 Firefox/132.0",
  accept: "text/html,application/xhtml+xml,application/xml;q=0.9,*/*;q=0.8",
  "accept-language": "en-US,en;q=0.5",
  "accept-encoding": "gzip, deflate, br, zstd",
};
const response = {
  status: 200,
  headers: {
    date: new Date().toUTCString(),
    "cache-control": "public, max-age=3600",
    vary: "Accept-Encoding",
    etag: '"33a64df551425fcc"',
    "content-type": "text/html; charset=utf-8",
  },
};
const urlOf = (index) => `https://www.example.com/articles/${index}`;

const store = new Map();
for (let index = 0; index < count; index += 1) {
  store.set(urlOf(index), new CachePolicy({ url: urlOf(index), method: "GET", headers }, response));
}
const step = Math.max(Math.floor(count / IN_TURN), 1);
const asked = Array.from({ length: Math.min(count, IN_TURN) }, (_, index) => urlOf(index * step));
let least = Infinity;
for (let round = 0; round < rounds; round += 1) {
  const start = process.hrtime.bigint();
  for (let at = 0; at < lookups; at += 1) {
    const url = asked[at % asked.length];
    const policy = store.get(url);
    if (!policy.satisfiesWithoutRevalidation({ url, method: "GET", headers }) || !policy.responseHeaders().age) {
      throw new Error("a lookup isn't a hit");
    }
  }
  least = Math.min(least, Number(process.hrtime.bigint() - start) / lookups);
}
console.log(`http-cache-semantics ${version}\t${Math.round(least)}`);
