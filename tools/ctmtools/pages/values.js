"use strict";
// What each cell holds and passes from frame to frame, as the reports have it.
const frames = data.times.length - 1;
const PARTS = 65535;  // the number that stands for the most of a cell
const LEAST_PARTS = 100;  // a cell that holds fewer has no speed, since rounding would show in it

// The bytes that a text spells; a page that is live has them as they are.
function bytesOf(text) {
  if (typeof text !== "string") return text;
  const letters = atob(text), bytes = new Uint8Array(letters.length);
  for (let i = 0; i < letters.length; i++) bytes[i] = letters.charCodeAt(i);
  return bytes;
}
for (const report of data.reports) {
  for (const name of ["density", "flow"]) report[name].parts = new Uint16Array(bytesOf(report[name].text).buffer);
  report.bits = bytesOf(report.queued);
  Object.assign(report, data.networks[report.network]);
  report.places = new Map(report.cells.map((cell, i) => [cell.name, i]));
}

// The mean over the frames from `first` to before `last`.
function mean(report, name, cell, first, last) {
  let sum = 0;
  for (let i = cell * frames + first; i < cell * frames + last; i++) sum += report[name].parts[i];
  return sum / (last - first) / PARTS * report[name].most[cell];
}
function isQueued(report, cell, frame) {
  const place = cell * frames + frame;
  return (report.bits[place >> 3] >> (7 - (place & 7)) & 1) === 1;
}
const lengthOf = cell => data.measured ? cell.to - cell.from : 1;
// The way of a step at free flow in the unit of speed.
const freeSpeed = cell => data.units.speed === "km/h" ? lengthOf(cell) * data.hour : 1;

function density(report, cell, first, last) { return mean(report, "density", cell, first, last); }
function densityByLane(report, cell, first, last) {
  return report.cells[cell].lanes ? density(report, cell, first, last) / report.cells[cell].lanes : NaN;
}
function flow(report, cell, first, last) { return mean(report, "flow", cell, first, last); }
// The vehicles of a gate that stay in it for the step.
function waits(report, gate, frame) {
  return Math.max(0, density(report, gate, frame, frame + 1) - flow(report, gate, frame, frame + 1) / data.hour);
}
// What is driven by the time spent, so that a mean over time is that of the vehicles. Nobody is faster than free flow, so what is
// above it is rounding.
function speed(report, cell, first, last) {
  const own = report.cells[cell], held = density(report, cell, first, last);
  if (own.kind !== "road" || held * PARTS < LEAST_PARTS * report.density.most[cell] || !held) return NaN;
  return Math.min(1, flow(report, cell, first, last) / data.hour / (held * lengthOf(own))) * freeSpeed(own);
}

const most = (report, of) => d3.max(report.cells, (cell, i) => cell.kind === "road" ? of(cell, i) : 0) || 0;
const quantities = {
  density: { unit: data.units.density, digits: 1, of: density, most: report => most(report, (_, i) => report.density.most[i]) },
  "density by lane": { unit: `${data.units.density} in a lane`, digits: 1, of: densityByLane,
    most: report => most(report, (cell, i) => report.density.most[i] / (cell.lanes || Infinity)) },
  flow: { unit: data.units.flow, digits: 0, of: flow, most: report => most(report, (_, i) => report.flow.most[i]) },
  speed: { unit: data.units.speed, digits: 1, of: speed, most: report => most(report, freeSpeed) },
};
if (!data.reports.every(report => report.cells.some(cell => cell.lanes))) delete quantities["density by lane"];
if (data.units.flow === "vehicles in a step") quantities.flow.digits = 2;
if (data.units.speed === "cells in a step") quantities.speed.digits = 2;
const unitOf = (name, cell) => cell.kind !== "road" && name === "density" ? "vehicles" : quantities[name].unit;
// What a quantity is called of a cell: a gate and an exit have no length, and so no density.
const whatOf = (name, cell) => cell.kind !== "road" && name === "density" ? `in the ${cell.kind}` : name;

function told(value, digits) {
  return value === null || value === undefined || Number.isNaN(value) ? "–" :
    value.toLocaleString("en", { maximumFractionDigits: digits }).replace(/^-(0*\.?0*)$/, "$1");
}
