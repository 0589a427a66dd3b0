// Binds the parts: a change of the view is drawn with the next frame, said, and kept in the link.

class Desk {
  constructor(texts, units, flow) {
    const view = this.view = new View(texts, units, flow);
    view.follow(location.hash.slice(1));
    this.tip = byId("tip");
    this.panel = new CellPanel(byId("panel"), (cell) => this.go(cell), (box) => this.point(box));
    this.controls = new Controls(view, (what) => this.changed(what));
    this.runPanel = new RunPanel(view, () => this.changed());
    this.chart = new Chart(byId("chart"));
    byId("summary").replaceChildren(...texts.map((text) => made("p", textSaid(text))));
    byId("desk").hidden = false;
    this.listen();
    this.changed("maps");
  }

  listen() {
    window.addEventListener("resize", () => this.changed("maps"));
    window.addEventListener("hashchange", () => {
      if (location.hash.slice(1) === this.view.link()) return;
      this.view.follow(location.hash.slice(1));
      this.changed("maps");
    });
    byId("chart").addEventListener("click", (event) => this.runPanel.choose(this.chart.timeAt(event.offsetX)));
    byId("copy").addEventListener("click", () => this.copyLink());
  }

  /** Has the page drawn again; what names parts that have to be made anew. */
  changed(what) {
    if (what === "maps") this.remake = true;
    if (what) this.controls.build();
    if (!this.isDue) requestAnimationFrame(() => this.draw());
    this.isDue = true;
  }

  draw() {
    const { view } = this;
    this.isDue = false;
    view.turn = Math.min(view.turn, view.turns - 1);
    if (this.remake) this.makeMaps();
    this.remake = false;
    const runs = this.runsNow();
    this.controls.show();
    for (const map of this.maps) {
      this.prepare(map);
      map.draw(view, runs.filter((run) => map.texts.includes(run.text)));
    }
    this.runPanel.show(runs);
    if (runs.length) this.chart.draw(view, runs);
    this.later();
  }

  /** The slower parts, once nothing moves any more. */
  later() {
    clearTimeout(this.timer);
    this.timer = setTimeout(() => {
      this.showPanel();
      history.replaceState(null, "", `#${this.view.link()}`);
    }, 90);
  }

  /** The panel, unless the cell that it shows is still looked at. */
  showPanel() {
    const { view } = this, key = [view.cell, view.turn, view.asked, view.left, view.right].join(" ");
    if (this.panelKey !== key) {
      this.panelKey = key;
      this.panel.showsAll = false;
      this.panel.show(view);
    }
    if (this.toSay) {
      byId("said").textContent = this.toSay === "run" ? byId("ran").textContent : this.cellSaid(view.cell);
    }
    this.toSay = null;
  }

  cellSaid(cell, text = this.view.text) {
    const { plant, units, turn } = this.view;
    const why = text.row(turn, cell) ? "" : ` ${whySaid(text, turn, cell, verdictsOf(text, turn, cell))}`;
    return `${cellSaid(plant, units, cell)}: ${rowSaid(text, turn, cell, units)}.${why}`;
  }

  /** A map of each text that is shown, and one of how two of them differ. */
  makeMaps() {
    const { view } = this, shown = view.shown, greatest = Math.max(...shown.map((text) => text.greatest));
    const specs = shown.map((text) => ({
      texts: [text],
      paint: (at, slice) => textPixels(text, at, slice, greatest),
      legend: () => legendOf(text, view, greatest),
    }));
    if (shown.length > 1) {
      const paint = (at, slice) => differencePixels(...shown, at, slice);
      specs.push({ texts: shown, paint, legend: () => differenceLegend(...shown, view) });
    }
    byId("maps").replaceChildren();
    const room = byId("first").clientWidth;
    const beside = room < 560 ? 1 : specs.length > 1 && room < 1300 ? 2 : specs.length;
    const width = Math.max(280, Math.floor((room - 14 * (beside - 1)) / beside));
    this.maps = specs.map((spec, k) => this.makeMap(spec, k, Math.min(width, 1000)));
    this.chart.fit(Math.min(byId("run").clientWidth, 1000), 170);
  }

  makeMap({ texts, paint: pixelsOf, legend }, k, width) {
    const figure = byId("figure").content.firstElementChild.cloneNode(true);
    const map = new CellMap(figure, texts, pixelsOf);
    byId("maps").append(figure);
    const name = texts.length > 1 ? `Difference of ${texts.map((text) => text.name).join(" and ")}` : texts[0].name;
    [map.name, map.legend, map.width] = [name, legend, width];
    map.canvas.setAttribute("aria-label", `Map of ${name}`);
    new Pointer(this, map, texts.length > 1 ? 0 : k);
    return map;
  }

  /** Gives a map its size, its name and its legend where these are others than before. */
  prepare(map) {
    const { view } = this, key = [view.by, view.input, view.turn, view.axes, view.left, view.right].join(" ");
    if (map.key === key) return;
    if (map.fitted !== String(view.axes)) map.fit(map.width, view);
    [map.key, map.fitted] = [key, String(view.axes)];
    const turn = map.texts.some((text) => text.turns.length > 1) ? `, turn ${view.turn}` : "";
    map.figure.querySelector("figcaption").textContent = this.maps.length > 1 || turn ? map.name + turn : "";
    map.figure.querySelector("ul").replaceChildren(...map.legend());
  }

  /** The runs of the shown texts; kept until what they begin with changes. */
  runsNow() {
    const { view } = this, { from, begin, samples, seed, noise, left, right } = view;
    const key = [from, begin, samples, seed, noise, left, right].join(" ");
    if (this.runKey === key) return this.runs;
    const isThere = (text) => view.from && text.row(view.begin, view.plant.cellOf(view.from));
    this.runs = view.shown.filter(isThere).map((text) => this.runBy(text));
    this.runKey = key;
    this.toSay = view.from ? "run" : "cell";
    return this.runs;
  }

  runBy(text) {
    const { view } = this, { begin, samples, seed, noise } = view;
    const run = runOf(text, view.from, { turn: begin, most: samples, seed, noise });
    run.number = view.shown.indexOf(text);
    run.ways = waysOf(run, view.units, view.flow);
    return run;
  }

  go(cell) {
    this.view.go(cell);
    this.toSay = "cell";
    this.changed();
  }

  point(box) {
    this.view.box = box;
    this.changed();
  }

  /** Runs from a state. */
  run(state) {
    Object.assign(this.view, { from: state, begin: this.view.turn, sample: 0 });
    this.changed();
  }

  async copyLink() {
    const link = `${location.href.split("#")[0]}#${this.view.link()}`;
    let said = "The link is copied.";
    try {
      await navigator.clipboard.writeText(link);
    } catch {
      said = "The link to this view stands in the address line.";
    }
    byId("copy").textContent = said;
    byId("said").textContent = said;
    setTimeout(() => { byId("copy").textContent = "Copy link to this view"; }, 3000);
  }
}
