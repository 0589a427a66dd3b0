// What a map draws of runs, and its frame and axes.

Object.assign(CellMap.prototype, {
  /** The point of a state whose numbers are fractions of places. */
  pointOf(parts) {
    return this.point(parts[this.slice.x], this.slice.y < 0 ? 0.5 : parts[this.slice.y]);
  },

  drawRun(run) {
    const isPatrol = run.text.kind === "patrol";
    for (const [isNow, colour, thickness] of [[false, "#555555", 1], [true, LINES[run.number], 1.8]]) {
      const path = new Path2D();
      run.ways.forEach((way, k) => {
        if ((!isPatrol || run.samples[k].turn === this.view.turn) === isNow) this.trackAlong(path, way);
      });
      this.strokePath(path, "#ffffff", thickness + 2.2);
      this.pen.setLineDash(run.number ? [6, 4] : []);
      this.strokePath(path, colour, thickness);
      this.pen.setLineDash([]);
    }
    if (run.samples.length <= 2000) run.samples.forEach((sample) => this.drawSample(sample));
    this.drawMarks(run);
  },

  trackAlong(path, way) {
    for (const piece of piecesOf(way, this.plant.periods)) {
      piece.forEach((parts, k) => {
        const point = this.pointOf(parts);
        if (k) path.lineTo(...point);
        else path.moveTo(...point);
      });
    }
  },

  strokePath(path, colour, thickness) {
    [this.pen.strokeStyle, this.pen.lineWidth, this.pen.lineJoin] = [colour, thickness, "round"];
    this.pen.stroke(path);
  },

  middleOf(state) {
    return this.pointOf(state.map((value, i) => this.plant.partOf(i, value)));
  },

  /** A dot for a sample, filled where it lies in the slice that is shown. */
  drawSample({ state }) {
    const { others, places, by } = this.view;
    const isHere = others.every((i) => this.plant.placeOf(i, state[i]) === places[i]);
    const colour = isHere || by === "share" ? "#000000" : "#ffffff";
    this.dot(...this.middleOf(state), Math.min(2.6, this.wide / 200), colour);
  },

  dot(x, y, radius, fill, edge = "#000000") {
    this.pen.beginPath();
    this.pen.arc(x, y, radius, 0, 2 * Math.PI);
    this.pen.fillStyle = fill;
    this.pen.fill();
    this.stroke(edge, 1);
  },

  /** The start, the end where the run is lost, and the sample that is looked at. */
  drawMarks(run) {
    const [x, y] = this.middleOf(run.samples[0].state);
    this.outline(x - 4, y - 4, 8, 8, "#000000", 2);
    const last = run.samples[run.samples.length - 1];
    if (run.ending === "lost") this.letter("\u00d7", ...this.middleOf(last.state), "#000000");
    const sample = run.samples[Math.min(this.view.sample, run.samples.length - 1)];
    this.dot(...this.middleOf(sample.state), 6, "#ffffff");
    this.dot(...this.middleOf(sample.state), 3, TARGET);
  },

  drawFrame() {
    const pen = this.pen, { x, y } = this.slice;
    [pen.strokeStyle, pen.lineWidth, pen.fillStyle, pen.font] = ["#333333", 1, "#222222", FONT];
    pen.strokeRect(MARGIN.left + 0.5, MARGIN.top + 0.5, this.wide - 1, this.high - 1);
    [pen.textAlign, pen.textBaseline] = ["center", "top"];
    for (const [word, part] of this.numbersOf(x, this.wide / 80)) this.tickBelow(word, MARGIN.left + part * this.wide);
    const label = this.view.units.label(this.plant.states[x][0]);
    pen.fillText(label, MARGIN.left + this.wide / 2, MARGIN.top + this.high + 26);
    if (y >= 0) this.drawSide(y);
  },

  tickBelow(word, at) {
    this.pen.fillRect(at - 0.5, MARGIN.top + this.high, 1, 5);
    this.pen.fillText(word, at, MARGIN.top + this.high + 8);
  },

  drawSide(y) {
    const pen = this.pen;
    [pen.textAlign, pen.textBaseline] = ["right", "middle"];
    for (const [word, part] of this.numbersOf(y, this.high / 50)) {
      const at = MARGIN.top + (1 - part) * this.high;
      pen.fillRect(MARGIN.left - 5, at - 0.5, 5, 1);
      pen.fillText(word, MARGIN.left - 8, at);
    }
    pen.save();
    pen.translate(14, MARGIN.top + this.high / 2);
    pen.rotate(-Math.PI / 2);
    pen.textAlign = "center";
    pen.fillText(this.view.units.label(this.plant.states[y][0]), 0, 0);
    pen.restore();
  },

  /** About so many numbers along an axis, each with its part of the way. */
  numbersOf(i, count) {
    const state = this.plant.states[i], { units } = this.view;
    const first = units.valueAt(state, 0), end = units.valueAt(state, this.plant.counts[i]);
    return ticksBetween(first, end, count).map((tick) => [decimal(tick), (tick - first) / (end - first)]);
  },
});
