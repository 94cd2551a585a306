// The queues of the approaches where they grow longest, over time, in m.
function queueInk(i) { return d3.schemeTableau10[i % 10]; }
function drawQueues() {
  const courses = shown().queues, section = byId("of-queues");
  section.hidden = !courses.length;
  if (section.hidden) return;
  const box = byId("queues"), width = box.clientWidth, height = box.clientHeight, x = timeScale(width), svg = cleared("queues");
  const longest = d3.max(courses, course => d3.max(course.metres)) || 1;
  const y = d3.scaleLinear([0, longest], [height - edges.bottom, edges.top]).nice(5);
  svg.append("g").attr("transform", `translate(0,${height - edges.bottom})`).call(timeAxis(x, width / 80));
  svg.append("g").attr("transform", `translate(${edges.left},0)`).call(d3.axisLeft(y).ticks(5));
  courses.forEach((course, i) => {
    const steps = d3.line().curve(d3.curveStepAfter).x((_, frame) => x(bounds[frame])).y(metres => y(metres));
    svg.append("path").attr("class", "curve").attr("fill", "none").attr("stroke", queueInk(i)).attr("stroke-width", 1.6)
      .attr("d", steps([...course.metres, course.metres[course.metres.length - 1]]));
  });
  d3.select("#queues-key").selectAll("span").data(courses).join("span").style("color", (_, i) => queueInk(i)).text(course => course.name);
}
// The signal of the junction of an approach: for each movement its greens over the cycle, and the phases that they make.
const LABELS = 250, ROW = 20;  // px
const signalsShown = () => shown().signals;
function signalsOfJunction() {
  const signals = signalsShown(), own = signals.find(signal => signal.approach === state.signal);
  return signals.filter(signal => signal.junction === own.junction);
}
function drawSignal() {
  const signals = signalsShown(), section = byId("of-signals");
  section.hidden = !signals.length;
  if (section.hidden) return;
  if (!signals.some(signal => signal.approach === state.signal)) state.signal = signals[0].approach;
  const rows = signalsOfJunction(), [own] = rows;
  byId("signal").replaceChildren(...[...new Set(signals.map(signal => signal.approach))].map(name => new Option(name, name)));
  byId("signal").value = state.signal;
  const box = byId("signals"), left = Math.min(LABELS, box.clientWidth / 2), right = box.clientWidth - edges.right;
  box.style.height = `${ROW * rows.length + 40}px`;
  const x = d3.scaleLinear([0, own.cycle], [left, right]), svg = cleared("signals"), foot = 18 + ROW * rows.length;
  const bounds = phaseBounds(rows), unit = data.clock.known ? "s" : "steps";
  svg.append("g").attr("transform", `translate(0,${foot})`).call(d3.axisBottom(x).ticks(Math.min(12, (right - left) / 60)));
  let number = 0;  // of a phase, in which anything is green
  bounds.forEach((time, i) => {
    svg.append("line").attr("x1", x(time)).attr("x2", x(time)).attr("y1", 14).attr("y2", foot).attr("stroke", "var(--line)");
    const next = i + 1 < bounds.length ? bounds[i + 1] : own.cycle;
    if (!rows.some(({ greens }) => greens.some(([begin, end]) => begin <= time && time < end))) return;
    number++;
    if (x(next) - x(time) > 14) svg.append("text").attr("class", "phase").attr("x", (x(time) + x(next)) / 2).attr("y", 11).attr("text-anchor", "middle").text(number);
  });
  rows.forEach((row, i) => drawGreensOf(svg, row, 18 + ROW * i, x, left));
  byId("signals-key").textContent = `Cycle ${told(own.cycle, 1)} ${unit}, which begins at ${clockText(own.zero)}; greens in ${unit} of the cycle. Numbers are its phases.`;
}
function drawGreensOf(svg, row, top, x, left) {
  const own = row.approach === state.signal, text = svg.append("text").attr("x", 2).attr("y", top + 13).attr("font-weight", own ? 600 : null).text(row.name);
  text.append("title").text(row.name);
  if (text.node().getComputedTextLength && text.node().getComputedTextLength() > left - 8) text.attr("textLength", left - 8).attr("lengthAdjust", "spacingAndGlyphs");
  svg.append("rect").attr("class", "red").attr("x", left).attr("y", top + 4).attr("width", x(row.cycle) - left).attr("height", 9).attr("fill", "var(--red)");
  for (const [begin, end] of row.greens) {
    svg.append("rect").attr("class", "green").attr("x", x(begin)).attr("y", top + 1).attr("width", Math.max(1, x(end) - x(begin))).attr("height", 15)
      .attr("fill", "var(--green)").append("title").text(`green ${told(begin, 1)} to ${told(end, 1)}`);
  }
}
// When in the cycle any of the greens begins or ends, from 0 on.
const phaseBounds = rows => [...new Set([0, ...rows.flatMap(row => row.greens.flat()).filter(time => time < rows[0].cycle)])].sort((a, b) => a - b);
