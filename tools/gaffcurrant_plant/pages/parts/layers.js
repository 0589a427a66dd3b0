// The colours of the cells of a slice: by rank, by input, by the share of the other states' places, or by how two texts
// differ.

/** The cells along two axes, the other states fixed at their places: counts, steps between cells, and the cell in the
 * lower left corner. */
function sliceOf(plant, view) {
  const [x, y] = view.axes;
  const base = view.places.reduce((cell, place, i) => (i === x || i === y ? cell : cell + place * plant.strides[i]), 0);
  const [high, up] = y < 0 ? [1, 0] : [plant.counts[y], plant.strides[y]];
  return { x, y, base, wide: plant.counts[x], high, across: plant.strides[x], up };
}

/** The pixels of a slice, from the upper left corner, by a function from cell to pixel. */
function paint({ base, wide, high, across, up }, pixelAt) {
  const pixels = new Uint32Array(wide * high);
  for (let row = 0, at = 0; row < high; row++) {
    let cell = base + (high - 1 - row) * up;
    for (let column = 0; column < wide; column++, cell += across) pixels[at++] = pixelAt(cell);
  }
  return pixels;
}

/** The same by a table of the pixels of ranks or of inputs, from BLOCKED on: the fast way, for sliders. */
function paintCodes({ base, wide, high, across, up }, codes, table) {
  const pixels = new Uint32Array(wide * high);
  for (let row = 0, at = 0; row < high; row++) {
    let cell = base + (high - 1 - row) * up;
    for (let column = 0; column < wide; column++, cell += across) pixels[at++] = table[codes[cell] - BLOCKED];
  }
  return pixels;
}

const [LOST_PIXEL, OBSTACLE_PIXEL, TARGET_PIXEL, KEPT_PIXEL] = [LOST, OBSTACLE, GOAL, shade(0.5)].map(pixelOf);
const PALETTE = Uint32Array.from({ length: 256 }, (_, k) => pixelOf(shade(k / 255)));
const known = new Map(), rankTables = new Map();

/** The pixels of the numbers from 0 to a greatest one, made once for each. */
function shades(greatest) {
  const at = (k) => (greatest ? Math.round((255 * k) / greatest) : 0);
  if (!known.has(greatest)) known.set(greatest, Uint32Array.from({ length: greatest + 1 }, (_, k) => PALETTE[at(k)]));
  return known.get(greatest);
}

function textPixels(text, view, slice, greatest) {
  if (view.by === "share") return sharePixels(text, view, slice);
  return view.by === "rank" ? rankPixels(text, view, slice, greatest) : inputPixels(text, view, slice);
}

function rankPixels(text, view, slice, greatest) {
  if (!rankTables.has(greatest)) rankTables.set(greatest, withCodes(KEPT_PIXEL, shades(greatest)));
  return paintCodes(slice, text.turn(view.turn).ranks, rankTables.get(greatest));
}

/** A table of pixels from BLOCKED on, with that of `-`. */
function withCodes(pixel, pixels) {
  const table = new Uint32Array(pixels.length - BLOCKED);
  table.set([OBSTACLE_PIXEL, LOST_PIXEL, pixel]);
  table.set(pixels, -BLOCKED);
  return table;
}

function inputPixels(text, view, slice) {
  if (text.inputKey !== view.input) {
    text.inputTable = withCodes(TARGET_PIXEL, Uint32Array.from(inputColours(text.plant, view.input).map(pixelOf)));
    text.inputKey = view.input;
  }
  return paintCodes(slice, text.turn(view.turn).inputs, text.inputTable);
}

/** For each place of the two axes, row by row from below, how many places of the other states have a row; kept for the
 * last asked. */
function countsAcross(text, view) {
  const key = `${view.axes} ${view.turn}`;
  if (text.acrossKey !== key) [text.acrossKey, text.across] = [key, countAcross(text, view)];
  return text.across;
}

function countAcross(text, view) {
  const { plant } = text, { ranks } = text.turn(view.turn);
  const { wide, high, across, up } = sliceOf(plant, view);
  const counts = new Uint32Array(wide * high);
  for (let cell = 0; cell < plant.cells; cell++) {
    if (ranks[cell] <= NO_ROW) continue;
    const row = up ? Math.floor(cell / up) % high : 0;
    counts[row * wide + Math.floor(cell / across) % wide]++;
  }
  return counts;
}

/** The slice as if all its cells stood row by row, from below. */
function rowByRow(slice) {
  return { ...slice, base: 0, across: 1, up: slice.wide };
}

function sharePixels(text, view, slice) {
  const counts = countsAcross(text, view), table = shades(100);
  const most = text.plant.cells / (slice.wide * slice.high);
  return paint(rowByRow(slice), (at) => (counts[at] ? table[Math.round((100 * counts[at]) / most)] : LOST_PIXEL));
}

// How two texts differ: cells with a row in the first alone, in the second alone, and between them what differs where
// both have one.

const FIRST_PIXEL = pixelOf(DIVERGING[0]), SECOND_PIXEL = pixelOf(DIVERGING[8]);

/** The pixels of differences from -greatest to greatest, the first's side first. */
function divergence(greatest) {
  const stops = DIVERGING.slice(1, 8), part = (k) => (greatest ? k / (2 * greatest) : 0.5);
  return Uint32Array.from({ length: 2 * greatest + 1 }, (_, k) => pixelOf(between(stops, part(k))));
}

function differencePixels(one, other, view, slice) {
  if (view.by === "share") return shareDifference(one, other, view, slice);
  const first = one.turn(view.turn), second = other.turn(view.turn);
  const isByRank = view.by === "rank" && !one.keeps && !other.keeps;
  const inBoth = isByRank ? rankDifference(one, other, view) : inputDifference(one, other, view);
  return paint(slice, (cell) => {
    const isFirst = first.has(cell), isSecond = second.has(cell);
    if (isFirst && isSecond) return inBoth(cell);
    if (isFirst || isSecond) return isFirst ? FIRST_PIXEL : SECOND_PIXEL;
    return one.obstacles[cell] && other.obstacles[cell] ? OBSTACLE_PIXEL : LOST_PIXEL;
  });
}

/** A function from a cell with a row in both to the pixel of how their ranks differ. */
function rankDifference(one, other, view) {
  const { ranks } = one.turn(view.turn), others = other.turn(view.turn).ranks;
  const greatest = greatestDifference(one, other, view), table = divergence(greatest);
  return (cell) => table[ranks[cell] - others[cell] + greatest];
}

/** By how much two ranks of the same cell differ at most; kept for the last asked. */
function greatestDifference(one, other, view) {
  const key = `${one.name} ${other.name} ${view.turn}`;
  if (one.differenceKey !== key) {
    const { ranks } = one.turn(view.turn), others = other.turn(view.turn).ranks;
    let most = 0;
    for (let cell = 0; cell < ranks.length; cell++) {
      if (ranks[cell] >= 0 && others[cell] >= 0) most = Math.max(most, Math.abs(ranks[cell] - others[cell]));
    }
    [one.differenceKey, one.difference] = [key, most];
  }
  return one.difference;
}

/** A function from a cell with a row in both to the pixel of whether they apply the same values, or the same one of the
 * input that is chosen. */
function inputDifference(one, other, view) {
  const keys = [one, other].map(({ plant }) => inputKeysOf(plant, view.input));
  const { inputs } = one.turn(view.turn), others = other.turn(view.turn).inputs;
  const same = pixelOf(SAME), differs = pixelOf(OTHER);
  return (cell) => (keys[0][inputs[cell]] === keys[1][others[cell]] ? same : differs);
}

/** For each input vector its values in one word, or that of the input that is chosen; kept with the plant. */
function inputKeysOf(plant, input) {
  plant.inputKeys ??= new Map();
  const word = (k) => (input < 0 ? plant.vector(k).join(" ") : String(plant.vector(k)[input]));
  if (!plant.inputKeys.has(input)) plant.inputKeys.set(input, Array.from({ length: plant.vectors }, (_, k) => word(k)));
  return plant.inputKeys.get(input);
}

function shareDifference(one, other, view, slice) {
  const first = countsAcross(one, view), second = countsAcross(other, view), table = divergence(100);
  const most = one.plant.cells / (slice.wide * slice.high);
  const pixelAt = (at) => table[100 + Math.round((100 * (second[at] - first[at])) / most)];
  return paint(rowByRow(slice), (at) => (first[at] || second[at] ? pixelAt(at) : LOST_PIXEL));
}
