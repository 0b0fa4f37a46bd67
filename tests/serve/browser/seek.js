// Plays a video after three seeks, and gives how long that took, in seconds.
async (path) => {
    const video = document.createElement('video');
    const came = (name) => new Promise((resolve, reject) => {
        video.addEventListener(name, resolve, {once: true});
        video.addEventListener('error', () => reject(Error(video.error.message)), {once: true});
        setTimeout(reject, 60000, Error(`no ${name} within a minute`));
    });
    const begun = performance.now();
    Object.assign(video, {muted: true, preload: 'metadata', src: `${path}?${Math.random()}`});
    document.body.append(video);
    await came('loadedmetadata');
    for (const part of [0.9, 0.1, 0.5]) {
        video.currentTime = part * video.duration;
        await came('seeked');
    }
    video.play();
    await came('timeupdate');
    video.remove();
    return (performance.now() - begun) / 1000;
}
