// The frames one after the other.
const PACES = [["60", "slow"], ["30", "normal"], ["10", "fast"]];  // seconds for the whole time
let playing = null, pace = 30;

function stop() {
  cancelAnimationFrame(playing);
  playing = null;
  byId("play").textContent = "\u25B6";
  byId("play").setAttribute("aria-label", "Play");
}
function play() {
  if (playing !== null) return stop();
  if (state.frame === frames - 1) state.frame = 0;
  let from = state.frame, since = null;
  byId("play").textContent = "\u275A\u275A";
  byId("play").setAttribute("aria-label", "Pause");
  const step = now => {
    since = since === null ? now : since;
    const frame = Math.min(frames - 1, from + Math.floor((now - since) / 1000 * frames / pace));
    if (frame !== state.frame) at(frame);
    if (frame === frames - 1) return stop();
    playing = requestAnimationFrame(step);
  };
  playing = requestAnimationFrame(step);
}
