// What stands in fields as numbers: clock times as seconds after midnight, lengths in km, durations in seconds; NaN where it can't be.
const DAY = 86400;

export function secondsOf(text, begins = 0) {
  const found = /^(\d{1,2}):(\d{2})(?::(\d{2}(?:\.\d+)?))?$/.exec(String(text || "").trim());
  if (!found) return NaN;
  const time = +found[1] * 3600 + +found[2] * 60 + +(found[3] || 0);
  return time < begins ? time + DAY : time;
}
export function clockOf(time) {
  const two = number => String(number).padStart(2, "0"), own = time > DAY ? time - DAY : time, seconds = Math.round(own % 60);
  return `${two(Math.floor(own / 3600))}:${two(Math.floor(own / 60) % 60)}${seconds ? `:${two(seconds)}` : ""}`;
}
export function kmOf(text) {
  const found = /^(-?[\d.]+)\s*(km|m)?$/.exec(String(text === undefined ? "" : text).trim());
  return found ? +found[1] / (found[2] === "m" ? 1000 : 1) : NaN;
}
export function durationOf(text) {
  const found = /^([\d.]+)\s*(s|min|h)?$/.exec(String(text === undefined ? "" : text).trim());
  return found ? +found[1] * { s: 1, min: 60, h: 3600 }[found[2] || "s"] : NaN;
}
