// Runs of the closed loop in doubles by the plant's equations, as the program's `sim` and tools/sim drive it.

const MULTIPLIER = 6364136223846793005n, INCREMENT = 1442695040888963407n;

/** The disturbances of a run, sample by sample, from the generator of docs/FORMATS.md. */
function* drawnNoises(plant, seed) {
  let state = BigInt(seed);
  for (;;) {
    yield plant.noises.map(([, low, high]) => {
      state = BigInt.asUintN(64, state * MULTIPLIER + INCREMENT);
      return low + plant.number((state >> 33n) % BigInt(high - low + plant.one));
    });
  }
}

/** Each disturbance moved to the nearer end of its range. */
function toEnds(plant, noise) {
  return noise.map((value, i) => {
    const [, low, high] = plant.noises[i];
    return value - low < high - value ? low : high;
  });
}

/** All ways to put each disturbance at an end of its range. */
function cornersOf(plant) {
  const longer = (corners, [, low, high]) => corners.flatMap((corner) => [[...corner, low], [...corner, high]]);
  return plant.noises.reduce(longer, [[]]);
}

/** The disturbance at the ends of the ranges after which the most samples are left, of equal ones the first. */
function hardest(text, turn, state, values) {
  let worst = null, most = -1;
  for (const corner of cornersOf(text.plant)) {
    const cell = text.plant.cellOf(text.plant.step(state, values, corner));
    const left = cell === null || !text.goesOn(turn, cell) ? Infinity : text.left(turn, cell);
    if (left > most) [worst, most] = [corner, left];
  }
  return worst;
}

/** What a disturbance is under each choice: as it is drawn, at the end that is nearer to it, or the hardest one. */
const NOISES = {
  random: (text, turn, state, values, drawn) => drawn,
  ends: (text, turn, state, values, drawn) => toEnds(text.plant, drawn),
  hardest: (text, turn, state, values) => hardest(text, turn, state, values),
};

/** A run: its samples, each with time, turn, state, row, and the turn that it has visited; and how it ends. */
function runOf(text, start, { turn = 0, most = 200, seed = 1, noise = "random" }) {
  const plant = text.plant, samples = [], draws = drawnNoises(plant, seed);
  let state = start, at = text.number(turn);
  for (let time = 0; ; time++) {
    const cell = plant.cellOf(state);
    const visited = time > 0 && cell !== null && text.isArrival(at, cell) ? at : null;
    if (visited !== null) at = text.behind(at);
    const row = text.row(at, cell);
    samples.push({ time, turn: at, state, row, visited });
    if (row === null) return { text, samples, ending: "lost" };
    if (row.input === null) return { text, samples, ending: "arrived" };
    if (time === most) return { text, samples, ending: "stopped" };
    const values = plant.vector(row.input);
    state = plant.step(state, values, NOISES[noise](text, at, state, values, draws.next().value));
  }
}

/** The lines of a trace text of a run, those of tools/sim. */
function traceOf(run) {
  const lines = ["trace 1"], isPatrol = run.text.kind === "patrol";
  for (const { time, turn, state, row, visited } of run.samples) {
    if (visited !== null) lines.push(`visited ${visited} ${time}`);
    const words = state.map(digits);
    if (row === null) lines.push(["lost", time, ...words].join(" "));
    else lines.push([time, ...(isPatrol ? [turn] : []), ...words, row.rank ?? "-", row.input ?? "-"].join(" "));
  }
  if (run.ending !== "lost") lines.push(`${run.ending} ${run.samples.length - 1}`);
  return lines;
}

/** A whole number in digits, 0 without its sign. */
function digits(value) {
  return String(value).replace(/^-0$/, "0");
}
