// The axis of time: clock times where the step is known, else steps.
const bounds = data.clock.bounds, begins = bounds[0], ends = bounds[frames];
const DAY = 86400;
const SPANS = data.clock.known ? [10, 20, 30, 60, 120, 300, 600, 900, 1200, 1800, 3600, 7200, 10800, 21600, 43200, DAY] :
  [1, 10, 100, 1000, 10000].flatMap(tens => [1, 2, 5].map(one => one * tens));

const frameAt = time => Math.max(0, Math.min(frames - 1, d3.bisectRight(bounds, time) - 1));
const timeScale = width => d3.scaleLinear([begins, ends], [edges.left, width - edges.right]);
function clockText(time) {
  if (!data.clock.known) return String(time);
  const two = number => String(number).padStart(2, "0");
  const days = Math.floor(time / DAY), seconds = time % 60;
  const text = `${two(Math.floor(time / 3600) % 24)}:${two(Math.floor(time / 60) % 60)}${seconds ? `:${two(Math.round(seconds))}` : ""}`;
  return days && time > DAY ? `${text} +${days} d` : days ? "24:00" : text;
}
// Ticks at round times, at most so many.
function timeAxis(scale, count) {
  const [low, high] = scale.domain(), span = SPANS.find(wide => (high - low) / wide <= count) || SPANS[SPANS.length - 1];
  return d3.axisBottom(scale).tickValues(d3.range(Math.ceil(low / span) * span, high + 1e-6, span)).tickFormat(clockText);
}
// Closures and signals as marks: their texts, and how they stand at a frame.
const closureText = ({ begin, end, flow }) => `${flow > 0 ? `${told(flow, 0)} ${data.units.flow}` : "closed"} ${clockText(begin)} to ${clockText(end)}`;
const signalText = signal => `signal, cycle ${told(signal.cycle, 1)} ${data.clock.known ? "s" : "steps"}`;
const isGreen = (signal, time) => {
  const within = ((time - signal.zero) % signal.cycle + signal.cycle) % signal.cycle;
  return signal.greens.some(([begin, end]) => within >= begin && within < end);
};
