// A map of cells on a canvas: the slice, obstacles, targets, runs, the cell that is looked at, and axes with numbers.

const MARGIN = { left: 66, right: 24, top: 10, bottom: 46 };

const FONT = "12px system-ui, sans-serif";

/** Numbers between two ends, about so many, whose steps begin with 1, 2 or 5; the ends themselves where doubles can't
 * tell them apart. */
function ticksBetween(low, high, count) {
  if (!(high - low > 1e-11 * Math.max(Math.abs(low), Math.abs(high)))) return [low, high];
  const rough = (high - low) / Math.max(count, 1), ten = 10 ** Math.floor(Math.log10(rough));
  const step = [1, 2, 5, 10].map((part) => part * ten).find((one) => one >= rough * 0.999);
  const first = Math.ceil(low / step - 1e-9), many = Math.floor(high / step + 1e-9) - first + 1;
  return Array.from({ length: many }, (_, k) => Number(((first + k) * step).toPrecision(12)));
}

class CellMap {
  /** pixelsOf gives the pixels of a slice; texts are those whose boxes and runs are drawn. */
  constructor(figure, texts, pixelsOf) {
    [this.figure, this.texts, this.plant, this.pixelsOf] = [figure, texts, texts[0].plant, pixelsOf];
    this.canvas = figure.querySelector("canvas");
    this.board = document.createElement("canvas");
  }

  /** Takes the size that there is for it on the page. */
  fit(width, view) {
    const ratio = window.devicePixelRatio || 1, height = Math.round(this.heightFor(width, view));
    Object.assign(this.canvas.style, { width: `${width}px`, height: `${height}px` });
    this.figure.style.width = `${width}px`;
    [this.canvas.width, this.canvas.height] = [width * ratio, height * ratio];
    this.ratio = ratio;
    [this.wide, this.high] = [width - MARGIN.left - MARGIN.right, height - MARGIN.top - MARGIN.bottom];
  }

  /** The height for a width: true to scale where both axes have the same unit, but never very flat or high. */
  heightFor(width, view) {
    const [x, y] = view.axes, around = MARGIN.top + MARGIN.bottom, most = Math.max(300, window.innerHeight * 0.66);
    if (y < 0) return around + 70;
    const { units } = view, states = [x, y].map((i) => this.plant.states[i]);
    const [one, other] = states.map(([name, low, high]) => Number(high - low) * units.size(name));
    const [word, second] = states.map(([name]) => units.words[name] ?? "");
    const isAlike = word === second && (word !== "" || !units.areKnown) && other / one > 0.45 && other / one < 1.5;
    return around + Math.min((width - MARGIN.left - MARGIN.right) * (isAlike ? other / one : 0.72), most);
  }

  /** The point of the canvas at fractions of places along the two axes. */
  point(x, y) {
    return [MARGIN.left + (x / this.slice.wide) * this.wide, MARGIN.top + (1 - y / this.slice.high) * this.high];
  }

  /** The fractions of places at a point of the canvas, or null outside of the map. */
  placesAt(px, py) {
    const x = ((px - MARGIN.left) / this.wide) * this.slice.wide;
    const y = (1 - (py - MARGIN.top) / this.high) * this.slice.high;
    return x >= 0 && x < this.slice.wide && y >= 0 && y < this.slice.high ? [x, y] : null;
  }

  draw(view, runs) {
    this.view = view;
    this.slice = sliceOf(this.plant, view);
    this.pen = this.canvas.getContext("2d");
    this.pen.setTransform(this.ratio, 0, 0, this.ratio, 0, 0);
    this.pen.clearRect(0, 0, this.canvas.width, this.canvas.height);
    this.drawCells();
    this.clipped(() => {
      if (view.by !== "share") this.drawObstacles();
      this.drawTargets();
      this.drawSuccessors();
      runs.forEach((run) => this.drawRun(run));
      this.drawCursor();
    });
    this.drawFrame();
  }

  clipped(draw) {
    this.pen.save();
    this.pen.beginPath();
    this.pen.rect(MARGIN.left - 1, MARGIN.top - 1, this.wide + 2, this.high + 2);
    this.pen.clip();
    draw();
    this.pen.restore();
  }

  drawCells() {
    const { wide, high } = this.slice;
    if (this.board.width !== wide || this.board.height !== high) [this.board.width, this.board.height] = [wide, high];
    const pixels = this.pixelsOf(this.view, this.slice);
    const image = new ImageData(new Uint8ClampedArray(pixels.buffer), wide, high);
    this.board.getContext("2d").putImageData(image, 0, 0);
    this.pen.imageSmoothingEnabled = wide > this.wide * this.ratio || high > this.high * this.ratio;
    this.pen.drawImage(this.board, MARGIN.left, MARGIN.top, this.wide, this.high);
  }

  /** The corners of a box on the canvas, or null where it doesn't meet the slice. */
  cornersOf(box, isWhole) {
    const { x, y } = this.slice, plant = this.plant;
    const meets = box.every(([low, high], i) => {
      if (i === x || i === y || this.view.by === "share") return true;
      const least = plant.lowAt(i, this.view.places[i]), most = least + plant.states[i][3] - plant.one;
      return isWhole ? low <= least && most <= high : low <= most && least <= high;
    });
    if (!meets) return null;
    const [left, right] = this.endsOf(box, x), [bottom, top] = y < 0 ? [0, 1] : this.endsOf(box, y);
    return [...this.point(left, top), ...this.point(right, bottom)];
  }

  /** The ends of a box along an axis in fractions of places. */
  endsOf(box, i) {
    const [, low, , width] = this.plant.states[i];
    return [Number(box[i][0] - low) / Number(width), Number(box[i][1] - low + this.plant.one) / Number(width)];
  }

  drawObstacles() {
    for (const box of this.texts[0].plant.obstacles) {
      const corners = this.cornersOf(box, false);
      if (corners) this.hatch(...corners);
    }
  }

  hatch(left, top, right, bottom) {
    const pen = this.pen;
    pen.save();
    pen.beginPath();
    pen.rect(left, top, right - left, bottom - top);
    pen.clip();
    pen.beginPath();
    for (let at = left - (bottom - top); at < right; at += 7) {
      pen.moveTo(at, bottom);
      pen.lineTo(at + bottom - top, top);
    }
    this.stroke("#4a4a4a", 1);
    pen.restore();
    pen.strokeStyle = "#4a4a4a";
    pen.strokeRect(left, top, right - left, bottom - top);
  }

  drawTargets() {
    this.texts[0].plant.targets.forEach((box, number) => {
      const corners = this.cornersOf(box, true);
      if (!corners) return;
      const [left, top, right, bottom] = corners, isDue = this.texts[0].kind !== "patrol" || number === this.view.turn;
      this.pen.setLineDash(isDue ? [] : [6, 4]);
      this.outline(left, top, right - left, bottom - top, TARGET, isDue ? 2.5 : 1.5);
      this.pen.setLineDash([]);
      if (this.texts[0].kind === "patrol") this.letter(String(number), left + 11, top + 12, TARGET);
    });
  }

  /** A frame with a light edge, to be seen on every colour. */
  outline(left, top, width, height, colour, thickness) {
    this.pen.strokeStyle = "#ffffff";
    this.pen.lineWidth = thickness + 2;
    this.pen.strokeRect(left, top, width, height);
    this.pen.strokeStyle = colour;
    this.pen.lineWidth = thickness;
    this.pen.strokeRect(left, top, width, height);
  }

  letter(word, x, y, colour) {
    const pen = this.pen;
    [pen.font, pen.textAlign, pen.textBaseline] = ["bold 15px system-ui, sans-serif", "center", "middle"];
    [pen.strokeStyle, pen.lineWidth, pen.fillStyle] = ["#ffffff", 4, colour];
    pen.strokeText(word, x, y);
    pen.fillText(word, x, y);
  }

  stroke(colour, thickness) {
    this.pen.strokeStyle = colour;
    this.pen.lineWidth = thickness;
    this.pen.stroke();
  }

  /** The successor box of the input that is pointed at in the list of inputs. */
  drawSuccessors() {
    if (!this.view.box) return;
    const { x, y } = this.slice, box = this.view.box;
    const [left, right] = this.endsOf(box, x), [bottom, top] = y < 0 ? [0, 1] : this.endsOf(box, y);
    const [px, py] = this.point(left, top), [qx, qy] = this.point(right, bottom);
    this.pen.setLineDash([4, 3]);
    this.outline(px, py, Math.max(qx - px, 2), Math.max(qy - py, 2), "#000000", 1.5);
    this.pen.setLineDash([]);
  }

  drawCursor() {
    const { x, y } = this.slice, { places } = this.view;
    const [left, top] = this.point(places[x], y < 0 ? 1 : places[y] + 1);
    const [right, bottom] = this.point(places[x] + 1, y < 0 ? 0 : places[y]);
    const grow = Math.max(0, (7 - (right - left)) / 2), rise = Math.max(0, (7 - (bottom - top)) / 2);
    this.pen.setLineDash(this.view.isPinned ? [] : [3, 2]);
    this.outline(left - grow, top - rise, right - left + 2 * grow, bottom - top + 2 * rise, "#000000", 1.5);
    this.pen.setLineDash([]);
  }
}
