// What the pointer and the keys do on a map.

class Pointer {
  constructor(desk, map, number) {
    [this.desk, this.view, this.map, this.number] = [desk, desk.view, map, number];
    const canvas = map.canvas;
    canvas.addEventListener("pointermove", (event) => this.move(event));
    canvas.addEventListener("pointerleave", () => this.leave());
    canvas.addEventListener("click", (event) => this.click(event));
    canvas.addEventListener("keydown", (event) => this.press(event));
    canvas.addEventListener("focus", () => this.look());
  }

  /** The places and the whole numbers of the state that is pointed at, or null. */
  at(event) {
    const found = this.map.placesAt(event.offsetX, event.offsetY);
    if (!found) return null;
    const { view } = this, plant = view.plant, state = plant.centre(view.cell), places = [...view.places];
    view.axes.forEach((i, which) => {
      if (i < 0) return;
      const [, low, high, width] = plant.states[i];
      places[i] = Math.floor(found[which]);
      state[i] = lesser(low + plant.number(Math.floor(found[which] * Number(width))), high);
    });
    return { places, state, cell: plant.cellAt(places) };
  }

  move(event) {
    const at = this.at(event);
    if (!at) return this.leave();
    if (!this.view.isPinned) {
      Object.assign(this.view, { places: at.places, box: null });
      this.look();
    }
    return this.showTip(event, at.cell);
  }

  look() {
    this.view.asked = this.number;
    this.desk.changed();
  }

  /** Says at once which row a cell has, and a little later why it has none. */
  showTip(event, cell) {
    const { desk, view } = this, { plant, units, turn } = view, text = view.shown[this.number], { tip } = desk;
    clearTimeout(this.timer);
    const said = `${cellSaid(plant, units, cell)}: ${rowSaid(text, turn, cell, units)}.`;
    if (this.told !== said) tip.textContent = said;
    this.told = said;
    tip.hidden = false;
    const isRight = event.clientX > window.innerWidth / 2;
    Object.assign(tip.style, { top: `${event.clientY + 16}px`, left: isRight ? "" : `${event.clientX + 14}px`,
      right: isRight ? `${window.innerWidth - event.clientX + 14}px` : "" });
    this.timer = setTimeout(() => { tip.textContent = desk.cellSaid(cell, text); }, 120);
  }

  leave() {
    clearTimeout(this.timer);
    this.told = null;
    this.desk.tip.hidden = true;
  }

  click(event) {
    const at = this.at(event);
    if (!at) return;
    this.view.asked = this.number;
    this.desk.go(at.cell);
    this.desk.run(at.state);
  }

  press(event) {
    const { view, desk } = this, steps = event.shiftKey ? 10 : 1, first = view.others[0];
    const moves = { ArrowLeft: [0, -steps], ArrowRight: [0, steps], ArrowDown: [1, -steps], ArrowUp: [1, steps] };
    if (event.ctrlKey || event.altKey || event.metaKey) return;
    if (moves[event.key]) {
      view.moveBy(...moves[event.key]);
      view.isPinned = true;
    } else if (event.key.startsWith("Page") && first !== undefined) {
      const place = view.places[first] + (event.key === "PageUp" ? 1 : -1);
      if (place >= 0 && place < view.plant.counts[first]) view.places[first] = place;
    } else if (event.key === "Enter" || event.key === " ") {
      desk.run(view.plant.centre(view.cell));
    } else if (event.key === "Escape") {
      view.isPinned = false;
    } else {
      return;
    }
    event.preventDefault();
    [desk.toSay, view.asked] = ["cell", this.number];
    desk.changed();
  }
}
