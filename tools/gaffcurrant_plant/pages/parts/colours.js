// Colours that everybody can tell apart: viridis for ranks and shares, Okabe and Ito's for up to eight inputs, with two
// more for up to ten, and blue to orange for differences.

const VIRIDIS = "#440154 #482475 #414487 #355f8d #2a788e #21918c #22a884 #44bf70 #7ad151 #bddf26 #fde725".split(" ");
const DIVERGING = "#08306b #2171b5 #6baed6 #c6dbef #f2f0eb #fdd0a2 #fd8d3c #d94801 #7f2704".split(" ");
const FEW = "#0072b2 #e69f00 #56b4e9 #f0e442 #cc79a7 #009e73 #d55e00 #333333 #7f5fbf #8c564b".split(" ");
// Of the runs of the first and of the second text.
const LINES = ["#000000", "#0b3d91"];
const LOST = "#ffffff", OBSTACLE = "#9a9a9a", TARGET = "#d0006f", GOAL = "#f6bcd6", SAME = "#e3e3e3", OTHER = "#6a3d9a";

function channels(colour) {
  return [1, 3, 5].map((at) => parseInt(colour.slice(at, at + 2), 16));
}

/** A colour along stops, for a part from 0 to 1. */
function between(stops, part) {
  const at = Math.min(Math.max(part, 0), 1) * (stops.length - 1), k = Math.min(Math.floor(at), stops.length - 2);
  const left = channels(stops[k]), right = channels(stops[k + 1]);
  const mixed = left.map((value, i) => Math.round(value + (at - k) * (right[i] - value)));
  return `#${mixed.map((value) => value.toString(16).padStart(2, "0")).join("")}`;
}

/** The colour of a part from 0, light, to 1, dark. */
function shade(part) {
  return between(VIRIDIS, 1 - part);
}

/** The input vectors of a plant in the order of their values, the first input first; kept with the plant. */
function orderedInputs(plant) {
  const signs = (one, other) => one.map((value, i) => (value < other[i] ? -1 : value > other[i] ? 1 : 0));
  const compared = ([k, one], [l, other]) => signs(one, other).find((sign) => sign) ?? k - l;
  const numbered = () => Array.from({ length: plant.vectors }, (_, k) => [k, plant.vector(k)]);
  return plant.ordered ??= numbered().sort(compared).map(([k]) => k);
}

/** The values of an input in rising order, each once. */
function valuesOfInput(plant, i) {
  return [...new Set(plant.inputs[i][1])].sort((one, other) => (one < other ? -1 : 1));
}

/** The colour of each value of an input: a few of their own, or shades by their size. */
function valueColours(plant, i) {
  const values = valuesOfInput(plant, i), first = Number(values[0]), range = Number(values[values.length - 1]) - first;
  const colour = (value, k) => (values.length <= FEW.length ? FEW[k] : shade((Number(value) - first) / range));
  return new Map(values.map((value, k) => [value, colour(value, k)]));
}

/** The colours of a plant's input vectors: a few of their own, or shades in the order of their values; where an input
 * is chosen, those of its values. */
function inputColours(plant, input) {
  if (input >= 0) {
    const known = valueColours(plant, input);
    return Array.from({ length: plant.vectors }, (_, k) => known.get(plant.vector(k)[input]));
  }
  const colours = FEW.slice(0, plant.vectors);
  if (plant.vectors <= FEW.length) return colours;
  orderedInputs(plant).forEach((k, at) => { colours[k] = shade(at / (plant.vectors - 1)); });
  return colours;
}

/** A colour as the four bytes of a pixel, which lie in memory from red to alpha. */
function pixelOf(colour) {
  const [red, green, blue] = channels(colour);
  return ((255 << 24) | (blue << 16) | (green << 8) | red) >>> 0;
}
