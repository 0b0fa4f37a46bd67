// Opens a connection for each job of standard input, a JSON list of {id, url, protocols, messages}, and prints what
// came.
const WebSocket = require('ws');
function open(job) {
    return new Promise((resolve) => {
        const socket = new WebSocket(job.url, job.protocols, {handshakeTimeout: 5000});
        const result = {id: job.id, open: false, echoes: []};
        const timer = setTimeout(() => { result.error = 'time'; socket.terminate(); resolve(result); }, 8000);
        const finish = () => { clearTimeout(timer); resolve(result); };
        socket.on('open', () => {
            const extensions = Object.keys(socket._extensions || {}).join(',');
            Object.assign(result, {open: true, protocol: socket.protocol, extensions});
            if (!job.messages.length) { socket.close(); } else { socket.send(job.messages[0]); }
        });
        socket.on('message', (data) => {
            result.echoes.push(data.toString());
            const next = job.messages[result.echoes.length];
            if (next === undefined) { socket.close(); } else { socket.send(next); }
        });
        socket.on('error', (error) => { result.error = String(error.message); });
        socket.on('close', (code) => { result.code = code; finish(); });
    });
}
(async () => {
    const jobs = JSON.parse(require('fs').readFileSync(0));
    const results = [];
    for (const job of jobs) { results.push(await open(job)); }
    process.stdout.write(JSON.stringify(results), () => process.exit(0));
})();
