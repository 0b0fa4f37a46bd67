// http-cache-semantics on random inputs: semantics.js CASES.json > ANSWERS.json
// Of each case: whether the response is storable, and whether it satisfies the second request without revalidation.
const fs = require('fs')
const CachePolicy = require('http-cache-semantics')
let clock = 0
CachePolicy.prototype.now = () => clock * 1000
const joined = (fields) => {
  const out = {}
  for (const [name, value] of fields) {
    const key = name.toLowerCase()
    const text = value.replace(/^[ \t]+|[ \t]+$/g, '')
    out[key] = key in out ? out[key] + ', ' + text : text
  }
  return out
}
process.stdout.write(JSON.stringify(JSON.parse(fs.readFileSync(process.argv[2])).map((it) => {
  try {
    clock = it.received
    const request = { method: it.method, url: '/', headers: joined(it.stored) }
    const response = { status: it.status, headers: joined(it.response) }
    const options = { shared: it.shared, cacheHeuristic: 0, immutableMinTimeToLive: 0 }
    const policy = new CachePolicy(request, response, options)
    clock = it.now
    const second = { method: it.method, url: '/', headers: joined(it.request) }
    return [policy.storable(), policy.satisfiesWithoutRevalidation(second)]
  } catch (error) { return [String(error), null] }
})))
