// Rows, causes and runs in words.

/** A cell's row in words, or why it has none as far as the cell itself shows it. */
function rowSaid(text, turn, cell, units) {
  const row = text.row(turn, cell), arrival = text.isArrival(turn, cell) ? "an arrival; " : "";
  if (!row && text.obstacles[cell]) return `not ${text.good}: it meets an obstacle, so no input helps`;
  if (!row) return `${arrival}not ${text.good}`;
  if (row.input === null) return "rank 0: it lies in a target, and nothing has to be applied";
  const applied = inputSaid(text.plant, units, row.input);
  if (row.rank === null) return `kept: apply ${applied}`;
  const held = text.kind === "stay" && row.rank === 0 ? " (held in the target)" : "";
  return `${arrival}rank ${row.rank}${held}: apply ${applied}`;
}

const KIND_SAID = {
  edge: ["leaves the domain", "leave the domain"],
  obstacle: ["may meet an obstacle", "may meet an obstacle"],
  itself: ["may come back to the cell itself", "may come back to the cell itself"],
  onward: ["may lead to cells without a row", "may lead to cells without a row"],
};

/** How many inputs of a cell are stopped by what: 3 leave the domain, 2 may meet an obstacle. */
function countsSaid(text, verdicts) {
  const good = text.keeps ? ["keeps", "keep"] : text.kind === "patrol" ? ["arrives", "arrive"] : ["wins", "win"];
  const said = ([kind, count]) => `${counted(count)} ${(KIND_SAID[kind] ?? good)[count === 1 ? 0 : 1]}`;
  return countsOf(verdicts).map(said).join(", ");
}

const STILL = " No input moves the cell farther than its box overhangs.";

/** What a cell's inputs come to. */
function whySaid(text, turn, cell, verdicts) {
  if (!text.goesOn(turn, cell) && text.obstacles[cell]) return "";
  const still = !text.goesOn(turn, cell) && isStill(text, verdicts) ? STILL : "";
  return `Of ${plural(verdicts.length, "input")}: ${countsSaid(text, verdicts)}.${still}`;
}

/** What a good input does. */
function goodSaid(text, turn, cell, verdict) {
  if (text.keeps) return "keeps: each successor is kept";
  const isHeld = text.kind === "stay" && text.row(turn, cell)?.rank === 0;
  if (isHeld && verdict.within === 1) return "stays: each successor is held";
  const verb = { table: "wins", stay: "comes to held cells", patrol: "arrives" }[text.kind];
  return `${verb} within ${plural(verdict.within, "sample")}`;
}

/** How a box leaves the domain. */
function edgeSaid(plant, units, verdict) {
  const said = (i) => {
    const [name, low, high] = plant.states[i], [first, last] = verdict.box[i];
    if (first < low) return `${name} may be ${units.said(name, first)}, below ${units.said(name, low)}`;
    return `${name} may be ${units.said(name, last)}, above ${units.endSaid(name, high)}`;
  };
  return `leaves the domain: ${verdict.leaves.map(said).join("; ")}`;
}

/** A state in words: p = 3 m, v = 1 m/s. */
function stateSaid(plant, units, state) {
  return plant.states.map(([name], i) => `${name} = ${units.said(name, state[i])}`).join(", ");
}

/** How a run went. */
function runSaid({ text, samples, ending }, units) {
  const last = samples[samples.length - 1], name = text.name;
  if (ending === "arrived") return `${name}: arrived after ${plural(last.time, "sample")}.`;
  if (ending === "lost") return `${name}: lost at sample ${last.time}, at ${stateSaid(text.plant, units, last.state)}.`;
  const visits = samples.filter(({ visited }) => visited !== null).length;
  const visited = text.kind === "patrol" ? `; ${plural(visits, "visit")}` : "";
  return `${name}: ${plural(last.time, "sample")}, each with a row${visited}.`;
}

const TEXT_SAID = { table: "a table to arrive", stay: "a stay text", patrol: "a patrol text" };

/** A text in one line: its kind, cells, rows and greatest rank. */
function textSaid(text) {
  const what = text.keeps ? "a table to be kept" : TEXT_SAID[text.kind];
  const counts = text.turns.map(({ won }) => counted(won)).join(", ");
  const rows = text.turns.length > 1 ? `in its turns ${counts} have rows` : `${counts} are ${text.good}`;
  const rank = text.keeps ? "" : `, greatest rank ${text.greatest}`;
  return `${text.name}: ${what} of ${counted(text.plant.cells)} cells; ${rows}${rank}.`;
}
