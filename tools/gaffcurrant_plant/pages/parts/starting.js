// The fields that say where and how to run, and what is shown of the runs.

const NOISE_WORDS = { random: "random", ends: "at random ends", hardest: "the hardest" };

const BENT = "Between two samples: the way by the model's differential equations, bent to end in the next sample.";
const STRAIGHT = "Between two samples: a straight line. With --model a model's differential equations draw the way.";
const FILLED = " Filled dots are samples in the slice that is shown.";

class RunPanel {
  /** changed is called after the view was changed. */
  constructor(view, changed) {
    [this.view, this.changed] = [view, changed];
    const { plant, units } = view, form = byId("start");
    this.states = plant.states.map(([name]) => this.field(units.label(name), ""));
    this.noise = made("select");
    optionsOf(this.noise, Object.values(NOISE_WORDS), Object.keys(NOISE_WORDS));
    [this.seed, this.most] = [this.field("seed", "short"), this.field("samples", "short")];
    const run = made("button", "Run");
    form.append(...this.states.map(({ parentElement }) => parentElement));
    if (plant.noises.length) form.append(made("label", "disturbances ", [this.noise]), this.seed.parentElement);
    form.append(this.most.parentElement, run);
    form.addEventListener("submit", (event) => {
      event.preventDefault();
      this.take();
    });
    this.noise.addEventListener("change", () => this.take());
    optionsOf(byId("over"), ["rank", ...plant.states.map(([name]) => units.label(name))], [-1, ...plant.states.keys()]);
    byId("over").addEventListener("change", (event) => {
      view.over = Number(event.target.value);
      changed();
    });
    byId("sample").addEventListener("input", (event) => this.choose(Number(event.target.value)));
  }

  field(name, kind) {
    const input = made("input");
    Object.assign(input, { type: "text", inputMode: "decimal", className: kind, name });
    made("label", `${name} `, [input]);
    return input;
  }

  /** Takes the fields, or says what is wrong with them. */
  take() {
    const { view } = this, { plant, units } = view;
    const values = this.states.map(({ value }) => (value.trim() === "" ? NaN : Number(value)));
    const wrong = values.findIndex((value) => !Number.isFinite(value));
    if (wrong >= 0) return this.complain(`${plant.states[wrong][0]} has to be a number.`);
    const state = values.map((value, i) => plant.number(units.whole(plant.states[i][0], value)));
    const seed = seedOf(this.seed.value.trim()), most = Number(this.most.value);
    if (plant.cellOf(state) === null) return this.complain(`The start is outside the domain: ${this.rangesSaid()}.`);
    if (seed === null) return this.complain("The seed is a whole number from 0 to 2^64 - 1.");
    if (!Number.isInteger(most) || most < 0 || most > MOST_SAMPLES) {
      return this.complain(`The samples are a whole number up to ${counted(MOST_SAMPLES)}.`);
    }
    Object.assign(view, { from: state, begin: view.turn, seed, samples: most, noise: this.noise.value, sample: 0 });
    this.isStale = true;
    return this.changed();
  }

  rangesSaid() {
    const { plant, units } = this.view;
    return plant.states.map(([name, low, high]) => `${name} ${units.range(name, low, high)}`).join(", ");
  }

  complain(words) {
    byId("ran").textContent = words;
    byId("said").textContent = words;
  }

  /** Goes to the cell and the turn of a sample of the first run. */
  choose(time) {
    const { view } = this, run = this.runs[0], sample = run?.samples[Math.min(time, run.samples.length - 1)];
    view.sample = time;
    if (sample) {
      const cell = view.plant.cellOf(sample.state);
      if (cell !== null) view.go(cell);
      if (run.text.kind === "patrol") view.turn = sample.turn;
    }
    this.changed();
  }

  /** Puts on the page which sample is looked at, and with new runs what they did. */
  show(runs) {
    const { view } = this;
    if (this.runs !== runs || this.isStale) this.renew(runs);
    byId("over").value = view.over;
    if (!runs.length) return;
    const said = this.sampleSaid(runs[0]);
    byId("sample").value = view.sample;
    byId("sample").setAttribute("aria-valuetext", said);
    byId("sample-said").textContent = said;
    byId("way").textContent = (view.flow ? BENT : STRAIGHT) + (view.others.length ? FILLED : "");
  }

  renew(runs) {
    const { view } = this;
    [this.runs, this.isStale] = [runs, false];
    this.put(view.from ?? view.plant.centre(view.cell));
    [this.noise.value, this.seed.value, this.most.value] = [view.noise, view.seed, view.samples];
    byId("over-time").hidden = !runs.length;
    byId("ran").textContent = view.from ? this.runsSaid(runs) : "No run yet.";
    byId("sample").max = Math.max(0, ...runs.map(({ samples }) => samples.length - 1));
    byId("lines").textContent = runs.length > 1 ? `Solid: ${runs[0].text.name}; dashed: ${runs[1].text.name}.` : "";
    byId("trace").textContent = runs.map((run) => traceOf(run).join("\n")).join("\n\n");
  }

  /** How the runs went, and which texts have no row where they were to begin. */
  runsSaid(runs) {
    const lost = this.view.shown.filter((text) => !runs.some((run) => run.text === text));
    const said = runs.map((run) => runSaid(run, this.view.units));
    return [...said, ...lost.map(({ name }) => `${name}: no row there.`)].join(" ");
  }

  /** Puts a state into the fields. */
  put(state) {
    const { plant, units } = this.view;
    const said = (value, i) => (units.areKnown ? decimal(units.value(plant.states[i][0], value)) : digits(value));
    state.forEach((value, i) => { this.states[i].value = said(value, i); });
  }

  sampleSaid(run) {
    const { units, sample } = this.view, { samples, text } = run;
    const { state, row, turn, time } = samples[Math.min(sample, samples.length - 1)];
    const turned = text.kind === "patrol" ? `, turn ${turn}` : "";
    const ranked = row && row.rank !== null ? `, rank ${row.rank}` : "";
    return `${time}: ${stateSaid(text.plant, units, state)}${turned}${ranked}`;
  }
}
