// Nanoseconds of decisions by packages of Node that servers use, the least of many rounds: name, package, time.
'use strict'

const ROUNDS = 41
const PATHS = ['/usr/share/nodejs', '/usr/lib/nodejs', ...module.paths]

function load (name) {
  try {
    return require(require.resolve(name, { paths: PATHS.map((it) => it + '/x') }))
  } catch {
    try {
      return require('/usr/share/nodejs/' + name)
    } catch {
      return null
    }
  }
}

// The least time of a call: `call` gets a number that differs each time, so that no answer can be kept.
function nanoseconds (call) {
  let count = 1000
  let least = Infinity
  let sum = 0
  for (let round = 0; round < ROUNDS; round++) {
    const start = process.hrtime.bigint()
    for (let at = 0; at < count; at++) sum += call(at)
    const time = Number(process.hrtime.bigint() - start) / count
    if (time * count < 5e6) count *= 2
    least = Math.min(least, time)
  }
  if (sum === 0) throw new Error('no work')
  return least
}

const tags = Array.from({ length: 20 }, (_, at) => `"${at.toString(16).padStart(40, '0')}"`).join(', ')
const now = 'Sun, 06 Nov 1994 08:49:37 GMT'

const fresh = load('fresh')
if (fresh) {
  const requests = ['"xyzzy"', '"xyzz"'].map((tag) => ({ 'if-none-match': tag }))
  const response = { etag: '"xyzzy"', 'last-modified': now }
  const row = (name, call) => console.log(`${name}\tfresh\t${nanoseconds(call)}`)
  row('a condition: one tag', (at) => fresh(requests[at & 1], response) ? 1 : 2)
  const many = ['', ', "a"'].map((end) => ({ 'if-none-match': tags + end }))
  row('a condition: twenty tags', (at) => fresh(many[at & 1], response) ? 1 : 2)
  const dates = [now, 'Mon, 07 Nov 1994 08:49:37 GMT'].map((it) => ({ 'if-modified-since': it }))
  row('a condition: a date', (at) => fresh(dates[at & 1], response) ? 1 : 2)
}

const parse = load('range-parser')
if (parse) {
  const row = (name, call) => console.log(`${name}\trange-parser\t${nanoseconds(call)}`)
  const one = ['bytes=0-499', 'bytes=9500-']
  row('ranges: one', (at) => parse(10000, one[at & 1]).length)
  const three = ['bytes=0-499,1000-1499, 9500-9999', 'bytes=1-2, 30-40, 500-600']
  row('ranges: three', (at) => parse(10000, three[at & 1]).length)
  const hundred = [0, 1].map((k) => 'bytes=' + Array.from({ length: 100 }, (_, at) => `${at * 90 + k}-${at * 90 + 49}`).join(','))
  row('ranges: a hundred', (at) => parse(10000, hundred[at & 1]).length)
}

const Negotiator = load('negotiator')
if (Negotiator) {
  const row = (name, call) => console.log(`${name}\tnegotiator\t${nanoseconds(call)}`)
  const accept = ['text/html,application/xhtml+xml,application/xml;q=0.9,*/*;q=0.8', 'application/json, text/plain;q=0.5']
    .map((it) => ({ headers: { accept: it } }))
  const types = ['application/json', 'text/html', 'text/plain']
  row('a media type of three', (at) => new Negotiator(accept[at & 1]).mediaType(types).length)
  const codings = ['gzip, deflate, br', 'gzip;q=0.5, identity'].map((it) => ({ headers: { 'accept-encoding': it } }))
  row('a coding of three', (at) => new Negotiator(codings[at & 1]).encoding(['gzip', 'br', 'identity']).length)
  const languages = ['de-CH, en;q=0.7', 'fr, en-GB;q=0.8, *;q=0.1'].map((it) => ({ headers: { 'accept-language': it } }))
  row('a language of three', (at) => new Negotiator(languages[at & 1]).language(['en-GB', 'de', 'fr']).length)
}
