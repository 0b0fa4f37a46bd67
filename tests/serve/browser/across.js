// What a page of another origin gets of the files at `base`: for each thing, whether it may be read.
async (base) => {
    const get = (path, options) => fetch(base + path, options);
    const element = (kind, path, event) => new Promise((resolve, reject) => {
        const made = document.createElement(kind);
        made.crossOrigin = 'anonymous';
        made.addEventListener(event, () => resolve(made));
        made.addEventListener('error', reject);
        made.src = base + path;
        document.body.append(made);
    });
    let tag;
    const things = {
        'a response': async () => {
            const answer = await get('data.json');
            tag = answer.headers.get('etag');
            const {key} = await answer.json();
            return answer.headers.get('accept-ranges') === 'bytes' && Boolean(tag) && key === 'wert ä';
        },
        'a range': async () => {
            const answer = await get('data.json', {headers: {Range: 'bytes=2-4'}});
            return answer.headers.get('content-range') === 'bytes 2-4/18' && await answer.text() === 'key';
        },
        'the last bytes': async () => (await get('data.json', {headers: {Range: 'bytes=-3'}})).status === 206,
        'If-None-Match': async () => (await get('data.json', {headers: {'If-None-Match': tag}})).status === 304,
        'If-Range': async () => {
            const answer = await get('data.json', {headers: {'If-Range': tag, Range: 'bytes=2-4'}});
            return answer.status === 206;
        },
        'a redirect': async () => (await get('folder')).redirected,
        'a 404': async () => (await get('nothing')).status === 404,
        'a module': async () => (await import(base + 'part.js')).part === 'part ä',
        'a font': async () => (await new FontFace('f', `url(${base}font.ttf)`).load()).status === 'loaded',
        'a picture on a canvas': async () => {
            const canvas = document.createElement('canvas').getContext('2d');
            canvas.drawImage(await element('img', 'a.png', 'load'), 0, 0);
            return canvas.getImageData(0, 0, 1, 1).data.length === 4;
        },
        'a video': async () => Math.round((await element('video', 'a.mp4', 'loadedmetadata')).duration) === 6,
        'WebAssembly': async () => {
            const {instance} = await WebAssembly.instantiateStreaming(get('a.wasm'));
            return instance.exports.answer() === 42;
        },
        'a field that isn\'t allowed': async () => (await get('data.json', {headers: {'X-Other': '1'}})).ok,
        'a method that isn\'t allowed': async () => (await get('data.json', {method: 'PUT', body: 'x'})).ok,
        'with credentials': async () => (await get('data.json', {credentials: 'include'})).ok,
    };
    const read = [];
    for (const [name, find] of Object.entries(things)) {
        if (await find().catch(() => false)) read.push(name);
    }
    return read;
}
