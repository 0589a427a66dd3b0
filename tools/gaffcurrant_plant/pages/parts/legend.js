// What the colours of a map mean, in words and samples of colour.

/** A colour with what it means. */
function keyOf(colour, said, kind = "") {
  const sample = made("span");
  sample.className = `sample ${kind}`;
  if (colour) sample.style.background = colour;
  sample.setAttribute("aria-hidden", "true");
  return made("li", "", [sample, said]);
}

/** A bar of colours from one word to another. */
function barOf(stops, first, last) {
  const bar = made("span");
  bar.className = "bar";
  bar.style.background = `linear-gradient(to right, ${stops.join(", ")})`;
  bar.setAttribute("aria-hidden", "true");
  return made("li", "", [made("span", first), bar, made("span", last)]);
}

// More inputs than so many are a bar from the first to the last.
const MOST_KEYS = 25;
const LIGHT_TO_DARK = [...VIRIDIS].reverse();

/** The legend of a text's map. */
function legendOf(text, view, greatest) {
  const keys = [];
  if (view.by === "share") keys.push(barOf(LIGHT_TO_DARK, `few places of ${namesOf(view)} are ${text.good}`, "all"));
  else if (view.by === "rank" && text.keeps) keys.push(keyOf(shade(0.5), "kept"));
  else if (view.by === "rank") keys.push(barOf(LIGHT_TO_DARK, "rank 0", `${greatest}`));
  else keys.push(...inputKeys(text, view));
  return [...keys, ...boxKeys(text, view)];
}

function inputKeys(text, view) {
  const keys = view.input < 0 ? vectorKeys(text, view) : valueKeys(text, view);
  return text.kind === "table" && !text.keeps ? [...keys, keyOf(GOAL, "nothing to apply")] : keys;
}

function vectorKeys({ plant }, view) {
  const ordered = orderedInputs(plant), colours = inputColours(plant, -1);
  const name = (k) => inputSaid(plant, view.units, k);
  if (ordered.length > MOST_KEYS) return [barOf(LIGHT_TO_DARK, name(ordered[0]), name(ordered[ordered.length - 1]))];
  return ordered.map((k) => keyOf(colours[k], name(k)));
}

/** The values of the input that is chosen. */
function valueKeys({ plant }, { input, units }) {
  const [name] = plant.inputs[input], known = [...valueColours(plant, input)];
  const said = ([value]) => `${name} = ${units.said(name, value)}`;
  if (known.length > FEW.length) return [barOf(LIGHT_TO_DARK, said(known[0]), said(known[known.length - 1]))];
  return known.map(([value, colour]) => keyOf(colour, said([value])));
}

function boxKeys(text, view) {
  const keys = [keyOf(LOST, `not ${text.good}`, "edged")];
  const targets = text.kind === "patrol" ? "targets, the turn's with a solid frame" : "target";
  if (text.plant.targets.length) keys.push(keyOf("", targets, "target"));
  if (text.plant.obstacles.length && view.by !== "share") keys.push(keyOf("", "obstacle", "hatched"));
  return keys;
}

function namesOf(view) {
  return view.others.map((i) => view.plant.states[i][0]).join(", ") || "no other state";
}

/** The legend of the map of differences. */
function differenceLegend(one, other, view) {
  const alone = [keyOf(DIVERGING[0], `in ${one.name} alone`), keyOf(DIVERGING[8], `in ${other.name} alone`)];
  const stops = DIVERGING.slice(1, 8), neither = keyOf(LOST, "in neither", "edged");
  if (view.by === "share") return [barOf(stops, `a larger share in ${one.name}`, `in ${other.name}`), neither];
  if (view.by === "rank" && !one.keeps && !other.keeps) {
    const most = greatestDifference(one, other, view);
    const bar = most ? barOf(stops, `fewer samples in ${one.name}, by up to ${most}`, `in ${other.name}`)
      : keyOf(stops[3], "the same rank in both");
    return [bar, ...alone, neither];
  }
  const what = view.by === "input" && view.input >= 0 ? view.plant.inputs[view.input][0] : "input";
  return [keyOf(SAME, `the same ${what} in both`), keyOf(OTHER, `another ${what}`), ...alone, neither];
}
