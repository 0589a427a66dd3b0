// The controls above the maps: axes, colours, texts, and sliders for the other states and the turn.

function byId(id) {
  return document.getElementById(id);
}

function optionsOf(select, names, values) {
  select.replaceChildren(...names.map((name, k) => {
    const option = made("option", name);
    option.value = values ? values[k] : k;
    return option;
  }));
}

class Controls {
  /** changed is called after the view was changed; what says that the maps have to be made anew. */
  constructor(view, changed) {
    [this.view, this.changed] = [view, changed];
    const names = view.plant.states.map(([name]) => view.units.label(name));
    [0, 1].forEach((which) => {
      optionsOf(byId(`axis-${which}`), names);
      this.on(`axis-${which}`, (value) => view.setAxis(which, Number(value)), "sliders");
    });
    byId("up").hidden = view.axes[1] < 0;
    byId("by").querySelector("[value=share]").parentElement.hidden = !view.others.length;
    optionsOf(byId("left"), view.texts.map(({ name }) => name));
    optionsOf(byId("right"), ["none", ...view.texts.map(({ name }) => name)], [-1, ...view.texts.keys()]);
    document.querySelectorAll(".several").forEach((label) => { label.hidden = view.texts.length < 2; });
    this.on("left", (value) => { view.left = Number(value); }, "maps");
    this.on("right", (value) => { view.right = Number(value); }, "maps");
    byId("by").addEventListener("change", ({ target }) => {
      Object.assign(view, target.id === "input" ? { input: Number(target.value), by: "input" } : { by: target.value });
      changed();
    });
    optionsOf(byId("input"), ["all inputs", ...view.plant.inputs.map(([name]) => view.units.label(name))],
      [-1, ...view.plant.inputs.keys()]);
    byId("input").parentElement.hidden = view.plant.inputs.length < 2;
    byId("controls").addEventListener("submit", (event) => event.preventDefault());
    byId("share").textContent = `${view.texts[0].good} share`;
  }

  on(id, take, what) {
    byId(id).addEventListener("change", (event) => {
      take(event.target.value);
      this.changed(what);
    });
  }

  /** Sliders for the states that are no axes, and for the turn. */
  build() {
    const { view } = this, { plant, units } = view;
    const move = (i, place) => {
      view.places[i] = place;
      view.box = null;
    };
    const sliders = view.others.map((i) =>
      this.slider(units.label(plant.states[i][0]), plant.counts[i] - 1, (place) => move(i, place)));
    if (view.turns > 1) sliders.push(this.slider("turn", view.turns - 1, (turn) => { view.turn = turn; }));
    byId("sliders").replaceChildren(...sliders);
    this.show();
  }

  slider(name, most, take) {
    const input = made("input"), output = made("output");
    Object.assign(input, { type: "range", min: 0, max: most, name });
    input.addEventListener("input", () => {
      take(Number(input.value));
      this.changed();
    });
    return made("label", `${name} `, [input, output]);
  }

  /** Puts what the view says into the controls. */
  show() {
    const { view } = this;
    view.axes.forEach((i, which) => { byId(`axis-${which}`).value = i; });
    [byId("left").value, byId("right").value] = [view.left, view.right];
    byId("input").value = view.input;
    for (const radio of byId("by").querySelectorAll("input")) radio.checked = radio.value === view.by;
    byId("by").querySelector("[value=rank]").disabled = view.shown.every((text) => text.keeps);
    const labels = [...byId("sliders").children];
    view.others.forEach((i, k) => this.put(labels[k], view.places[i], this.placeSaid(i), view.by === "share"));
    const said = `target ${view.turn} of 0 to ${view.turns - 1}`;
    if (view.turns > 1) this.put(labels[view.others.length], view.turn, said, false);
  }

  /** The range of the place of a state. */
  placeSaid(i) {
    const { plant, units, places } = this.view, [name, , , width] = plant.states[i], low = plant.lowAt(i, places[i]);
    return units.range(name, low, low + width - plant.one);
  }

  put(label, value, said, isOff) {
    const [input, output] = label.children;
    input.value = value;
    input.disabled = isOff;
    input.setAttribute("aria-valuetext", said);
    output.textContent = isOff ? "all its places" : said;
  }
}
