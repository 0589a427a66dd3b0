// The panel beside the maps: the cell that is looked at, its rows, and what each of its inputs does.

const SHOWN_INPUTS = 24, SHOWN_CELLS = 3;

/** An element with a class, what it says, and elements below it. */
function made(tag, said = "", parts = []) {
  const element = document.createElement(tag);
  element.textContent = said;
  element.append(...parts);
  return element;
}

class CellPanel {
  /** go is called with a cell that a cause names, point with the box of an input that is pointed at, or null. */
  constructor(place, go, point) {
    [this.place, this.go, this.point] = [place, go, point];
    this.showsAll = false;
  }

  show(view) {
    const { units, cell, turn, text } = view;
    const said = (one) => rowSaid(one, turn, cell, units), isAlone = view.shown.length === 1;
    const rows = view.shown.map((one) => made("p", isAlone ? `${upper(said(one))}.` : `${one.name}: ${said(one)}.`));
    const verdicts = verdictsOf(text, turn, cell), why = whySaid(text, turn, cell, verdicts);
    this.place.replaceChildren(this.nameOf(view), ...rows);
    if (!why) return;
    if (!isAlone) this.place.append(made("h3", `Its inputs in ${text.name}`));
    this.place.append(made("p", why), this.listOf(view, verdicts));
    if (verdicts.length > SHOWN_INPUTS && !this.showsAll) this.place.append(this.moreOf(view, verdicts.length));
  }

  nameOf({ plant, units, cell, places }) {
    const low = plant.low(cell), high = plant.high(cell), list = made("dl");
    list.className = "cell";
    plant.states.forEach(([name], i) => list.append(made("dt", name), made("dd", units.range(name, low[i], high[i]))));
    list.append(made("dt", "cell"), made("dd", counted(cell)));
    return list;
  }

  listOf(view, verdicts) {
    const list = made("ul"), applied = view.text.row(view.turn, view.cell)?.input;
    list.className = "inputs";
    const first = this.showsAll ? verdicts : sorted(verdicts, applied).slice(0, SHOWN_INPUTS);
    first.forEach((verdict) => list.append(this.itemOf(view, verdict, verdict.vector === applied)));
    return list;
  }

  itemOf(view, verdict, isApplied) {
    const { text, units, turn, cell } = view, item = made("li");
    item.className = verdict.kind;
    const name = made("strong", inputSaid(text.plant, units, verdict.vector) + (isApplied ? ", applied" : ""));
    item.append(name, ": ");
    if (verdict.kind === "good") item.append(goodSaid(text, turn, cell, verdict));
    else if (verdict.kind === "edge") item.append(edgeSaid(text.plant, units, verdict));
    else this.addCauses(item, view, verdict);
    item.addEventListener("pointerenter", () => this.point(verdict.box));
    item.addEventListener("pointerleave", () => this.point(null));
    item.addEventListener("focusin", () => this.point(verdict.box));
    return item;
  }

  /** The cells without a row that an input may lead to, each a button that goes there. */
  addCauses(item, view, verdict) {
    const said = [];
    if (verdict.obstacles.length) said.push(["may meet an obstacle: ", verdict.obstacles]);
    if (verdict.comesBack) said.push(["may come back to the cell itself", []]);
    const onward = `may lead to ${plural(verdict.others.length, "cell")} without a row, of ${counted(verdict.fan)}: `;
    if (verdict.others.length) said.push([onward, verdict.others]);
    said.forEach(([words, cells], k) => {
      item.append((k ? "; " : "") + words);
      cells.slice(0, SHOWN_CELLS).forEach((cell) => item.append(this.buttonTo(view, cell), " "));
      const left = `${cells.length - SHOWN_CELLS}${cells.length === KEPT_CELLS ? " or more" : ""}`;
      if (cells.length > SHOWN_CELLS) item.append(`and ${left} other${left === 1 ? "" : "s"}`);
    });
  }

  buttonTo(view, cell) {
    const button = made("button", cellSaid(view.plant, view.units, cell));
    button.type = "button";
    button.addEventListener("click", () => this.go(cell));
    return button;
  }

  moreOf(view, count) {
    const button = made("button", `Show all ${counted(count)} inputs`);
    button.type = "button";
    button.addEventListener("click", () => {
      this.showsAll = true;
      this.show(view);
    });
    return button;
  }
}

/** Verdicts with the input that is applied first, then those that go on well, then those with the least share of cells
 * without a row. */
function sorted(verdicts, applied) {
  const last = (one) => (one.kind === "good" ? one.within : one.kind === "edge" ? 2 : one.lost / one.fan);
  const order = (one) => [one.vector === applied ? 0 : 1, one.kind === "good" ? 0 : 1, last(one)];
  return [...verdicts].sort((one, other) => {
    const a = order(one), b = order(other);
    return a[0] - b[0] || a[1] - b[1] || a[2] - b[2] || one.vector - other.vector;
  });
}

function upper(words) {
  return words[0].toUpperCase() + words.slice(1);
}
