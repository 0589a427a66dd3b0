// What changes over the time of the runs: the rank, or a state.

const CHART = { left: 52, right: 10, top: 10, bottom: 34 };

class Chart {
  constructor(canvas) {
    this.canvas = canvas;
  }

  fit(width, height) {
    const ratio = window.devicePixelRatio || 1;
    Object.assign(this.canvas.style, { width: `${width}px`, height: `${height}px` });
    [this.canvas.width, this.canvas.height] = [width * ratio, height * ratio];
    [this.ratio, this.wide, this.high] = [ratio, width - CHART.left - CHART.right, height - CHART.top - CHART.bottom];
  }

  /** Draws for each run what the view asks for: -1 is the rank, else the number of a state. */
  draw(view, runs) {
    const pen = this.pen = this.canvas.getContext("2d");
    pen.setTransform(this.ratio, 0, 0, this.ratio, 0, 0);
    pen.clearRect(0, 0, this.canvas.width, this.canvas.height);
    const lines = runs.map((run) => (view.over < 0 ? ranksOf(run) : valuesOf(run, view.over, view.units)));
    const points = lines.flat();
    if (!points.length) return;
    this.scale(points, view.over < 0 ? 0 : null);
    this.drawAxes(view);
    lines.forEach((line, k) => this.drawLine(line, LINES[k], k * 4));
    this.drawTime(Math.min(view.sample, this.last));
  }

  scale(points, least) {
    const values = points.map(([, value]) => value).filter(Number.isFinite);
    const reduced = (choose) => values.reduce((a, b) => choose(a, b));
    [this.low, this.top] = [least ?? reduced(Math.min), reduced(Math.max)];
    if (this.top === this.low) this.top = this.low + 1;
    this.last = Math.max(1, points.reduce((most, [time]) => Math.max(most, time), 0));
  }

  x(time) {
    return CHART.left + (time / this.last) * this.wide;
  }

  y(value) {
    return CHART.top + (1 - (value - this.low) / (this.top - this.low)) * this.high;
  }

  /** The sample at a place across. */
  timeAt(px) {
    return Math.max(0, Math.min(Math.round(((px - CHART.left) / this.wide) * this.last), this.last));
  }

  drawAxes(view) {
    const pen = this.pen;
    [pen.strokeStyle, pen.lineWidth, pen.fillStyle, pen.font] = ["#999999", 1, "#222222", FONT];
    pen.strokeRect(CHART.left + 0.5, CHART.top + 0.5, this.wide - 1, this.high - 1);
    [pen.textAlign, pen.textBaseline] = ["right", "middle"];
    for (const tick of ticksBetween(this.low, this.top, this.high / 40)) {
      if (view.over >= 0 || Number.isInteger(tick)) pen.fillText(decimal(tick), CHART.left - 6, this.y(tick));
    }
    [pen.textAlign, pen.textBaseline] = ["center", "top"];
    const seconds = view.flow ? view.flow.time : null;
    for (const tick of ticksBetween(0, this.last * (seconds ?? 1), this.wide / 70)) {
      if (!seconds && !Number.isInteger(tick)) continue;
      pen.fillText(decimal(tick), this.x(tick / (seconds ?? 1)), CHART.top + this.high + 5);
    }
    const said = seconds ? "time, in the model's unit" : "samples";
    pen.fillText(said, CHART.left + this.wide / 2, CHART.top + this.high + 19);
  }

  drawLine(line, colour, dash) {
    const pen = this.pen;
    pen.beginPath();
    line.forEach(([time, value], k) => {
      const isNew = k === 0 || Number.isNaN(line[k - 1][1]);
      if (!Number.isNaN(value)) pen[isNew ? "moveTo" : "lineTo"](this.x(time), this.y(value));
    });
    pen.setLineDash(dash ? [6, dash] : []);
    [pen.strokeStyle, pen.lineWidth] = [colour, 1.8];
    pen.stroke();
    pen.setLineDash([]);
  }

  drawTime(time) {
    this.pen.fillStyle = TARGET;
    this.pen.fillRect(this.x(time) - 1, CHART.top, 2, this.high);
  }
}

/** The ranks of a run over its samples, as stairs. */
function ranksOf(run) {
  const points = [];
  run.samples.forEach(({ time, row }) => {
    if (!row || row.rank === null) return;
    points.push([time, row.rank], [Math.min(time + 1, run.samples.length - 1), row.rank]);
  });
  return points;
}

/** A state of a run over its samples and on the way between them. */
function valuesOf(run, i, units) {
  const { plant } = run.text, state = plant.states[i], periods = [plant.periods[i], 0];
  if (!run.ways.length) return [[0, units.middle(state[0], run.samples[0].state[i])]];
  const timed = (way, k) => way.map((parts, j) => [parts[i], k + j / (way.length - 1)]);
  const pieces = run.ways.flatMap((way, k) => piecesOf(timed(way, k), periods).map((piece, at) => [piece, at]));
  // A gap, which has no number, parts the pieces of a way.
  return pieces.flatMap(([piece, at]) => [...(at ? [[piece[0][1], NaN]] : []),
    ...piece.map(([part, time]) => [time, units.valueAt(state, part)])]);
}
