// A plant, its cells and its successor boxes: what plant.py does, for the cell that is looked at.

class Plant {
  constructor(data) {
    this.version = data.version;
    this.goal = data.goal;
    this.states = data.states.map(([name, ...ends]) => [name, ...ends.map(whole)]);
    this.inputs = data.inputs.map(([name, values]) => [name, values.map(whole)]);
    this.noises = data.noises.map(([name, ...ends]) => [name, ...ends.map(whole)]);
    this.targets = data.targets.map((box) => box.map((ends) => ends.map(whole)));
    this.obstacles = data.obstacles.map((box) => box.map((ends) => ends.map(whole)));
    this.equations = data.equations.map(wholeNode);
    this.number = typeof this.states[0][1] === "bigint" ? BigInt : Number;
    const two = this.number(2), one = this.number(1), zero = this.number(0);
    this.one = one;
    this.counts = this.states.map(([, low, high, width]) => Number((high - low + one) / width));
    // After how many places a state comes round, 0 where it doesn't.
    this.periods = this.counts.map((count, i) => (data.comesRound[i] ? count : 0));
    this.strides = this.counts.map((_, i) => this.counts.slice(i + 1).reduce((a, b) => a * b, 1));
    this.cells = this.counts.reduce((a, b) => a * b, 1);
    this.vectors = this.inputs.reduce((product, [, values]) => product * values.length, 1);
    this.rest = this.noises.map(([, low, high]) => floorDivide(low + high, two));
    this.radii = [...this.states.map(([, , , width]) => floorDivide(width, two)), ...this.inputs.map(() => zero),
      ...this.noises.map(([, , high], i) => high - this.rest[i])];
    this.functions = this.equations.map(valueFunction);
    this.moves = new Map();
  }

  /** The values of the inputs under an input vector, the first input varying slowest. */
  vector(number) {
    const values = [];
    for (const [, choices] of [...this.inputs].reverse()) {
      values.unshift(choices[number % choices.length]);
      number = Math.floor(number / choices.length);
    }
    return values;
  }

  step(state, values, noise) {
    const variables = [...state, ...values, ...noise];
    return this.functions.map((value) => value(variables));
  }

  placesOf(cell) {
    return this.counts.map((count, i) => Math.floor(cell / this.strides[i]) % count);
  }

  cellAt(places) {
    return places.reduce((cell, place, i) => cell + place * this.strides[i], 0);
  }

  /** The place of a state's number along its axis, in the domain or not. */
  placeOf(i, value) {
    return Number(floorDivide(value - this.states[i][1], this.states[i][3]));
  }

  /** The middle of a state's number along its axis, as a fraction of places. */
  partOf(i, value) {
    const [, low, , width] = this.states[i];
    return (Number(value - low) + 0.5) / Number(width);
  }

  /** The cell of a state, or null outside the domain. */
  cellOf(state) {
    if (state.some((value, i) => value < this.states[i][1] || value > this.states[i][2])) return null;
    return this.cellAt(state.map((value, i) => this.placeOf(i, value)));
  }

  lowAt(i, place) {
    return this.states[i][1] + this.number(place) * this.states[i][3];
  }

  low(cell) {
    return this.placesOf(cell).map((place, i) => this.lowAt(i, place));
  }

  high(cell) {
    return this.low(cell).map((low, i) => low + this.states[i][3] - this.one);
  }

  centre(cell) {
    return this.low(cell).map((low, i) => low + this.radii[i]);
  }

  /** Whether each point of a cell lies in a box. */
  isWithin(cell, box) {
    const low = this.low(cell), high = this.high(cell);
    return box.every(([first, last], i) => first <= low[i] && high[i] <= last);
  }

  /** Whether a cell has a point in an obstacle. */
  isObstacle(cell) {
    const low = this.low(cell), high = this.high(cell);
    return this.obstacles.some((box) => box.every(([first, last], i) => first <= high[i] && low[i] <= last));
  }

  /** For each cell whether it is an obstacle. */
  obstacleCells() {
    const cells = new Uint8Array(this.cells);
    for (const box of this.obstacles) {
      const inRange = ([first, last], i) => [Math.max(first, 0), Math.min(last, this.counts[i] - 1)];
      const extents = this.extents(box).map(inRange);
      const [first, last] = extents.pop();
      for (const base of first <= last ? this.cellsOf(extents) : []) cells.fill(1, base + first, base + last + 1);
    }
    return cells;
  }

  /** The deviations of the equations under an input vector. */
  deviations(values) {
    const key = values.join(" ");
    if (!this.moves.has(key)) {
      const ends = (entries) => entries.map(([, low, high]) => [low, high]);
      const area = [...ends(this.states), ...values.map((value) => [value, value]), ...ends(this.noises)];
      this.moves.set(key, this.equations.map((node) => boundsOf(node, area, this.radii)[2]));
    }
    return this.moves.get(key);
  }

  /** The ends of the successor box along each state, whether it lies in the domain or not. */
  box(cell, vector) {
    const values = this.vector(vector), moves = this.deviations(values);
    const middle = this.step(this.centre(cell), values, this.rest);
    const ends = middle.map((one, i) => [one - moves[i], one + moves[i]]);
    if (this.version < 2) return ends;
    const low = this.low(cell), high = this.high(cell);
    const area = [...low.map((one, i) => [one, high[i]]), ...values.map((value) => [value, value]),
      ...this.noises.map((noise) => noise.slice(1))];
    return ends.map(([first, last], i) => {
      const [least, most] = spanOf(this.equations[i], area);
      return [greater(first, least), lesser(last, most)];
    });
  }

  /** The states in which a box leaves the domain, as their numbers. */
  leaves(box) {
    return this.states.map((_, i) => i).filter((i) => box[i][0] < this.states[i][1] || box[i][1] > this.states[i][2]);
  }

  /** The first and the last place of a box along each state. */
  extents(box) {
    return box.map(([low, high], i) => [this.placeOf(i, low), this.placeOf(i, high)]);
  }

  /** The cells of some places along each state, in rising order. */
  * cellsOf(extents, i = 0, base = 0) {
    if (i === extents.length) {
      yield base;
      return;
    }
    for (let place = extents[i][0]; place <= extents[i][1]; place++) {
      yield* this.cellsOf(extents, i + 1, base + place * this.strides[i]);
    }
  }
}
