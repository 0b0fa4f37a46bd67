// A caching reverse proxy whose decisions are those of node's http-cache-semantics: semantics_proxy.js PORT ORIGIN
const http = require('http')
const CachePolicy = require('http-cache-semantics')
const [port, origin] = process.argv.slice(2).map(Number)
const store = new Map()

const joined = (raw) => {
  const out = {}
  for (let i = 0; i < raw.length; i += 2) {
    const name = raw[i].toLowerCase()
    out[name] = name in out ? out[name] + ', ' + raw[i + 1] : raw[i + 1]
  }
  return out
}

function ask (method, url, headers, body, then) {
  const sent = { ...headers }
  for (const name of ['connection', 'content-length', 'keep-alive']) delete sent[name]
  if (body.length) sent['content-length'] = String(body.length)
  const options = { host: '127.0.0.1', port: origin, method, path: url, headers: sent, agent: false }
  const request = http.request(options, (response) => {
    const parts = []
    response.on('data', (it) => parts.push(it))
    response.on('end', () => then(null, {
      status: response.statusCode,
      headers: joined(response.rawHeaders),
      body: Buffer.concat(parts),
      whole: response.complete
    }))
    response.on('error', (error) => then(error))
  })
  request.on('error', (error) => then(error))
  request.end(body)
}

http.createServer((request, response) => {
  const parts = []
  request.on('data', (it) => parts.push(it))
  request.on('end', () => {
    const body = Buffer.concat(parts)
    const { method, url } = request
    const headers = joined(request.rawHeaders)
    const send = (status, fields, content) => {
      const out = { ...fields }
      for (const name of ['connection', 'transfer-encoding', 'keep-alive']) delete out[name]
      if (status !== 304 && status !== 204) out['content-length'] = content.length
      response.writeHead(status, out)
      response.end(content)
    }
    const key = method + ' ' + url
    const forward = (fields, entry) => ask(method, url, fields, body, (error, got) => {
      if (error || !got.whole) {
        const failed = { status: 503, headers: {} }
        if (entry && entry.policy.revalidatedPolicy({ method, url, headers }, failed).modified === false) {
          return send(entry.status, entry.policy.responseHeaders(), entry.body)
        }
        return error ? send(504, {}, Buffer.alloc(0)) : send(502, {}, Buffer.alloc(0))
      }
      const now = { method, url, headers }
      const plain = { status: got.status, headers: got.headers }
      if (entry) {
        const { policy, modified } = entry.policy.revalidatedPolicy(now, plain)
        if (!modified) {
          store.set(key, { ...entry, policy })
          return send(entry.status, policy.responseHeaders(), entry.body)
        }
      }
      const policy = new CachePolicy(now, plain)
      if (policy.storable()) store.set(key, { policy, status: got.status, body: got.body })
      else if (!['GET', 'HEAD', 'OPTIONS', 'TRACE'].includes(method) && got.status < 400) {
        store.delete('GET ' + url)
        store.delete('HEAD ' + url)
      }
      send(got.status, got.headers, got.body)
    })
    const entry = store.get(key) || (method === 'HEAD' ? store.get('GET ' + url) : undefined)
    const now = { method, url, headers }
    if (entry && entry.policy.satisfiesWithoutRevalidation(now)) {
      return send(entry.status, entry.policy.responseHeaders(), entry.body)
    }
    if (entry) return forward(entry.policy.revalidationHeaders(now), entry)
    return forward(headers)
  })
}).listen(port, '127.0.0.1')
