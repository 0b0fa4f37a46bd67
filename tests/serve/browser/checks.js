// Each check has a name, what it has to give, and how that is found. `results` has the checks that give something else.
const by = (id) => document.getElementById(id);
const event = (target, name) => new Promise((came, failed) => {
    target.addEventListener(name, came, {once: true});
    target.addEventListener('error', () => failed('an error'), {once: true});
});
const within = (seconds, made) => Promise.race([
    made, new Promise((_, failed) => setTimeout(failed, 1000 * seconds, `nothing within ${seconds} seconds`)),
]);
const picture = async (id) => {
    if (!by(id).complete) await event(by(id), 'load');
    return by(id).naturalWidth;
};
const media = async (id) => {
    if (by(id).readyState < 1) await event(by(id), 'loadedmetadata');
    return Math.round(by(id).duration);
};
const style = (selector, name, part) => getComputedStyle(document.querySelector(selector), part)[name];
const font = async (name) => (await document.fonts.load(`20px ${name}`)).length;
const text = async (path) => (await fetch(path)).text();
const checks = [
    ['a module', 'part ä', async () => (await import('./part.js')).part],
    ['a module that is imported later', 'later', async () => (await import('./later.js')).later],
    ['a module .mjs', 'mjs', async () => (await import('./tool.mjs')).tool],
    ['a module of JSON', 'wert ä', async () => (await import('./data.json', {with: {type: 'json'}})).default.key],
    ['a script', 'classic ä', () => window.classic],
    ['a style sheet', 'rgb(0, 80, 160)', () => style('h1', 'color')],
    ['a style sheet that is imported', '21px', () => style('.imported', 'fontSize')],
    ['a style sheet\'s charset', '"ä"', () => style('h1', 'content', '::after')],
    ['a font .ttf', 1, () => font('of-ttf')],
    ['a font .woff', 1, () => font('of-woff')],
    ['a font .woff2', 1, () => font('of-woff2')],
    ...['png', 'jpg', 'gif', 'webp', 'avif', 'bmp'].map((kind) => [`a picture .${kind}`, 64, () => picture(kind)]),
    ['a picture .svg', 40, () => picture('svg')],
    ['a picture with an odd name', 64, () => picture('odd')],
    ['a video .mp4', 6, () => media('mp4')],
    ['a video .webm', 4, () => media('webm')],
    ...['wav', 'ogg', 'mp3'].map((kind) => [`a sound .${kind}`, 8, () => media(kind)]),
    ['a track', 1, async () => {
        const {track} = document.querySelector('track');
        track.mode = 'showing';
        if (!track.cues?.length) await event(document.querySelector('track'), 'load');
        return track.cues.length;
    }],
    ['a frame after a redirect', 'in the folder ä', () => by('folder').contentDocument.body.innerText.trim()],
    ['a frame of XHTML', 'xhtml', () => by('xhtml').contentDocument.querySelector('p').textContent],
    ['WebAssembly', 42, async () => {
        const {instance} = await WebAssembly.instantiateStreaming(fetch('a.wasm'));
        return instance.exports.answer();
    }],
    ['a worker', 'worker of part ä', async () => {
        const said = await event(new Worker('worker.js', {type: 'module'}), 'message');
        return said.data;
    }],
    ['a service worker', true, async () => {
        const registered = await navigator.serviceWorker.register('service.js');
        await navigator.serviceWorker.ready;
        return registered.unregister();
    }],
    ['JSON', 'wert ä', async () => JSON.parse(await text('data.json')).key],
    ['a name with a plus and a percent sign', 'odd ä', () => text(`odd%20names/${encodeURIComponent('ä +%')}.txt`)],
    ['what isn\'t there', 404, async () => (await fetch('nothing')).status],
    ['HEAD', 200, async () => (await fetch('data.json', {method: 'HEAD'})).status],
    ['a range', '206 key', async () => {
        const answer = await fetch('data.json', {headers: {Range: 'bytes=2-4'}});
        return `${answer.status} ${await answer.text()}`;
    }],
    ['17 MiB', 17 << 20, async () => (await (await fetch('large.bin')).arrayBuffer()).byteLength],
];

async function run() {
    if (document.readyState !== 'complete') await event(window, 'load');
    const failed = {};
    for (const [name, wanted, find] of checks) {
        try {
            const found = await within(20, find());
            if (found !== wanted) failed[name] = String(found);
        } catch (error) {
            failed[name] = String(error);
        }
    }
    return {count: checks.length, failed};
}

window.results = run();
