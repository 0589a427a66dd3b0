// What is looked at: axes, places, turn, colours, texts and run; and the link that keeps it.

const COLOURS = ["rank", "input", "share"];

class View {
  constructor(texts, units, flow) {
    [this.texts, this.units, this.flow] = [texts, units, flow];
    const plant = this.plant = texts[0].plant;
    this.axes = [0, plant.states.length > 1 ? 1 : -1];
    this.places = firstPlaces(plant);
    this.turn = 0;
    this.left = 0;
    this.right = texts.length > 1 ? 1 : -1;
    this.by = texts[0].keeps ? (plant.states.length > 2 ? "share" : "input") : "rank";
    // The number of the input by whose values is coloured, or -1 for all of them together.
    this.input = -1;
    this.isPinned = false;
    this.asked = 0;
    this.box = null;
    this.from = null;
    this.samples = Math.max(20, ...texts.map(samplesFor));
    [this.begin, this.seed, this.noise, this.sample] = [0, "1", "random", 0];
    this.over = texts[0].keeps ? 0 : -1;
  }

  /** The texts that are shown, one or two. */
  get shown() {
    return this.right < 0 ? [this.texts[this.left]] : [this.texts[this.left], this.texts[this.right]];
  }

  /** The text that the list of inputs is about. */
  get text() {
    return this.shown[Math.min(this.asked, this.shown.length - 1)];
  }

  get turns() {
    return Math.max(...this.shown.map((text) => text.turns.length));
  }

  get cell() {
    return this.plant.cellAt(this.places);
  }

  /** The states that are no axes. */
  get others() {
    return this.plant.states.map((_, i) => i).filter((i) => !this.axes.includes(i));
  }

  go(cell) {
    this.places = this.plant.placesOf(cell);
    this.isPinned = true;
    this.box = null;
  }

  /** Takes other axes; an axis that is taken already changes places with the other. */
  setAxis(which, i) {
    if (this.axes[1 - which] === i) this.axes[1 - which] = this.axes[which];
    this.axes[which] = i;
  }

  moveBy(axis, steps) {
    const i = this.axes[axis];
    if (i < 0) return;
    this.places[i] = Math.min(Math.max(this.places[i] + steps, 0), this.plant.counts[i] - 1);
    this.box = null;
  }

  /** The words behind `#` that keep the view. */
  link() {
    const name = (i) => (i < 0 ? "" : this.plant.states[i][0]);
    const [x, y] = this.axes.map(name);
    const words = { x, y, at: this.places.join("."), turn: this.turn, by: this.by,
      input: this.input < 0 ? "all" : this.plant.inputs[this.input][0],
      left: this.left, right: this.right, asked: this.asked, pin: Number(this.isPinned),
      over: this.over < 0 ? "rank" : name(this.over), n: this.samples, seed: this.seed, noise: this.noise };
    const run = this.from ? { from: this.from.map(digits).join(","), begin: this.begin, sample: this.sample } : {};
    return new URLSearchParams({ ...words, ...run }).toString().replaceAll("%2C", ",");
  }

  /** The number of a state by its name, or another one where there is none. */
  named(word, other) {
    const i = this.plant.states.findIndex(([name]) => name === word);
    return i < 0 ? other : i;
  }

  /** The number of an input by its name; -1 for all, and the one before where there is none. */
  inputNamed(word) {
    const i = this.plant.inputs.findIndex(([name]) => name === word);
    return i < 0 && word !== "all" ? this.input : i;
  }

  /** Takes what a link says; what doesn't fit the texts is passed over. */
  follow(link) {
    const words = new URLSearchParams(link), { counts } = this.plant;
    const among = (word, known, old) => (known.includes(word) ? word : old);
    const axes = [this.named(words.get("x"), this.axes[0]), this.named(words.get("y"), this.axes[1])];
    if (axes[0] !== axes[1]) this.axes = axes;
    const places = (words.get("at") ?? "").split(".");
    if (places.length === counts.length) {
      this.places = places.map((word, i) => within(word, 0, counts[i] - 1, this.places[i]));
    }
    this.left = within(words.get("left"), 0, this.texts.length - 1, this.left);
    this.right = within(words.get("right"), -1, this.texts.length - 1, this.right);
    this.turn = within(words.get("turn"), 0, this.turns - 1, this.turn);
    this.asked = within(words.get("asked"), 0, 1, this.asked);
    this.by = among(words.get("by"), COLOURS, this.by);
    this.input = this.inputNamed(words.get("input"));
    this.isPinned = words.get("pin") === "1";
    this.over = words.get("over") === "rank" ? -1 : this.named(words.get("over"), this.over);
    this.samples = within(words.get("n"), 0, MOST_SAMPLES, this.samples);
    this.seed = seedOf(words.get("seed")) ?? this.seed;
    this.noise = among(words.get("noise"), Object.keys(NOISES), this.noise);
    this.followRun(words);
  }

  followRun(words) {
    const from = (words.get("from") ?? "").split(",");
    const isState = from.length === this.plant.states.length && from.every((word) => /^-?[0-9]{1,18}$/.test(word));
    const state = isState ? from.map((word) => this.plant.number(word)) : null;
    this.from = state && this.plant.cellOf(state) !== null ? state : null;
    this.begin = within(words.get("begin"), 0, this.turns - 1, 0);
    this.sample = within(words.get("sample"), 0, MOST_SAMPLES, 0);
  }
}

const MOST_SAMPLES = 100000;

/** The whole number that a word spells where it lies between two others, else an old one. */
function within(word, low, high, old) {
  const number = /^-?[0-9]{1,9}$/.test(word ?? "") ? Number(word) : NaN;
  return low <= number && number <= high ? number : old;
}

/** So many samples that a run from any cell arrives, and some more where it goes on for ever. */
function samplesFor(text) {
  if (text.kind === "table") return text.keeps ? 60 : text.greatest;
  return text.kind === "stay" ? text.greatest + 20 : 3 * text.greatest;
}

/** A seed's digits where they are below 2^64, else null. */
function seedOf(word) {
  return /^[0-9]{1,20}$/.test(word ?? "") && BigInt(word) < 2n ** 64n ? String(BigInt(word)) : null;
}

/** The places of the middle of the first target, or of the domain where there is none. */
function firstPlaces(plant) {
  return plant.counts.map((count, i) => {
    if (!plant.targets.length) return count >> 1;
    const inside = (end) => Math.min(Math.max(plant.placeOf(i, end), 0), count - 1);
    const [low, high] = plant.targets[0][i].map(inside);
    return (low + high) >> 1;
  });
}
