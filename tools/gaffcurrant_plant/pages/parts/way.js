// The way between two samples by the model's differential equations, in doubles.

const REALS = {
  num: (node) => () => node[1],
  var: (node) => (v) => v[node[1]],
  add: (node, a, b) => (v) => a(v) + b(v),
  mul: (node, a, b) => (v) => a(v) * b(v),
  min: (node, a, b) => (v) => Math.min(a(v), b(v)),
  max: (node, a, b) => (v) => Math.max(a(v), b(v)),
  atan2: (node, a, b) => (v) => Math.atan2(a(v), b(v)),
  abs: (node, a) => (v) => Math.abs(a(v)),
  call: (node, a) => (v) => Math[node[1]](a(v)),
  lut: (node, a) => (v) => onPieces(node.slice(2), a(v)),
  power: (node, a) => (v) => Math.pow(a(v), node[1]),
};

/** The value of straight pieces between points, whose numbers are listed as x0, y0, x1, y1, ..; beyond them the first
    or the last one's. */
function onPieces(numbers, x) {
  let k = 0;
  while (k < numbers.length && numbers[k] <= x) k += 2;
  if (k === 0 || k === numbers.length) return numbers[k === 0 ? 1 : k - 1];
  const [before, y, after, next] = numbers.slice(k - 2, k + 2);
  return y + ((next - y) * (x - before)) / (after - before);
}

/** A function from the list of the model's variables to the value of a real expression. */
function realFunction(node) {
  return REALS[node[0]](node, ...node.slice(1).filter(Array.isArray).map(realFunction));
}

const STEPS = 12;

/** The model's differential equations: their right sides, their sampling time, and their disturbances in rest. */
class Flow {
  constructor({ time, sides, noises }) {
    this.time = time;
    this.sides = sides.map(realFunction);
    this.noises = noises;
  }

  slope(state, values) {
    const variables = [...state, ...values, ...this.noises];
    return this.sides.map((side) => side(variables));
  }

  /** The states on the way of a sample from one state on, by Runge and Kutta's method of order four. */
  course(state, values) {
    const step = this.time / STEPS, way = [state];
    const moved = (from, slope, by) => from.map((x, i) => x + by * slope[i]);
    for (let k = 0; k < STEPS; k++) {
      const at = way[k];
      const one = this.slope(at, values), two = this.slope(moved(at, one, step / 2), values);
      const three = this.slope(moved(at, two, step / 2), values), four = this.slope(moved(at, three, step), values);
      way.push(at.map((x, i) => x + (step / 6) * (one[i] + 2 * two[i] + 2 * three[i] + four[i])));
    }
    return way;
  }

  /** The same bent so that it ends where the next sample was: what the disturbance and the rounding did is spread over
   * the sample, of a state that comes round the shorter way. */
  between(state, values, next, periods) {
    const way = this.course(state, values), end = way[STEPS];
    const beside = next.map((x, i) => shorter(x - end[i], periods[i]));
    return way.map((at, k) => at.map((x, i) => x + (k / STEPS) * beside[i]));
  }
}

/** A difference the shorter way round, where there is a period. */
function shorter(difference, period) {
  return period ? difference - period * Math.round(difference / period) : difference;
}

/** For each sample of a run but the last the states on the way to the next one, as fractions of places, which count on
 * behind the end of a range that comes round; without a flow just the two. */
function waysOf(run, units, flow) {
  const { plant } = run.text, ends = run.samples.map(({ state }) => state.map((value, i) => plant.partOf(i, value)));
  const next = (k) => ends[k].map((part, i) => part + shorter(ends[k + 1][i] - part, plant.periods[i]));
  return run.samples.slice(0, -1).map((_, k) => (flow && flowBetween(run, k, units, flow)) || [ends[k], next(k)]);
}

/** The pieces of a way that lie in the ranges: it leaves at one edge of a state that comes round, and comes in at the
 * other. */
function piecesOf(way, periods) {
  if (!periods.some(Boolean)) return [way];
  const shifts = periods.map(() => 0), pieces = [[]];
  const here = (point, i, edge) => point.map((x, j) => (j === i ? edge : x + shifts[j]));
  way.forEach((point, k) => {
    let from = way[Math.max(k - 1, 0)];
    for (let cut = cutOf(here(from), here(point), periods); cut; cut = cutOf(here(from), here(point), periods)) {
      const { i, share } = cut, isAbove = point[i] > from[i];
      from = from.map((x, j) => x + share * (point[j] - x));
      pieces[pieces.length - 1].push(here(from, i, isAbove ? periods[i] : 0));
      shifts[i] += isAbove ? -periods[i] : periods[i];
      pieces.push([here(from, i, isAbove ? 0 : periods[i])]);
    }
    pieces[pieces.length - 1].push(here(point));
  });
  return pieces;
}

/** Where a straight way first leaves a range that comes round: the state, and the share of the way; or null. */
function cutOf(from, to, periods) {
  const cuts = periods.map((period, i) => ({ i, edge: to[i] > from[i] ? period : 0 }))
    .filter(({ i, edge }) => periods[i] && (to[i] > periods[i] || to[i] < 0) && to[i] !== edge)
    .map(({ i, edge }) => ({ i, share: (edge - from[i]) / (to[i] - from[i]) }));
  return cuts.length ? cuts.reduce((one, other) => (other.share < one.share ? other : one)) : null;
}

/** The way behind a sample by a flow, as fractions of places, or null where the flow has no number there. */
function flowBetween(run, k, units, flow) {
  const { plant } = run.text, real = ({ state }) => state.map((value, i) => units.middle(plant.states[i][0], value));
  const applied = plant.vector(run.samples[k].row.input);
  const values = applied.map((value, i) => units.value(plant.inputs[i][0], value));
  const periods = plant.states.map(([name, , , width], i) => plant.periods[i] * Number(width) * units.size(name));
  const way = flow.between(real(run.samples[k]), values, real(run.samples[k + 1]), periods);
  return way.flat().every(Number.isFinite) ? way.map((at) => at.map((x, i) => units.partOf(plant.states[i], x))) : null;
}
