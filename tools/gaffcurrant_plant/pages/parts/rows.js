// The rows of a table, a stay text or a patrol text, unpacked from the page's data.

// What stands in the place of a rank and an input: in an obstacle without a row, elsewhere without a row, and for `-`.
const BLOCKED = -3, NO_ROW = -2, NO_RANK = -1, NO_INPUT = -1;

/** The bytes of a packed text. */
async function unpacked(words) {
  const bytes = Uint8Array.from(atob(words), (letter) => letter.charCodeAt(0));
  const stream = new Blob([bytes]).stream().pipeThrough(new DecompressionStream("deflate"));
  return new Response(stream).arrayBuffer();
}

const ARRAYS = { 1: Uint8Array, 2: Uint16Array, 4: Uint32Array };

/** The columns of numbers, of so many bytes each, that stand one behind the other. */
function columnsOf(buffer, count, widths) {
  let at = 0;
  return widths.map((width) => new ARRAYS[width](buffer.slice(at, at += width * count)));
}

/** The rows of one turn: rank and input of each cell. */
class Turn {
  constructor(cells, columns) {
    const [gaps, lengths, ranks, inputs] = columns;
    this.ranks = new Int32Array(cells).fill(NO_ROW);
    this.inputs = new Int16Array(cells).fill(NO_ROW);
    this.won = this.greatest = 0;
    let cell = 0;
    for (let k = 0; k < gaps.length; k++) {
      cell += gaps[k];
      const end = cell + lengths[k] + 1;
      this.ranks.fill(ranks[k] - 1, cell, end);
      this.inputs.fill(inputs[k] - 1, cell, end);
      this.won += end - cell;
      this.greatest = Math.max(this.greatest, ranks[k] - 1);
      cell = end;
    }
  }

  has(cell) {
    return this.ranks[cell] > NO_ROW;
  }

  /** Notes the cells of obstacles, so that they can be coloured. */
  block(obstacles) {
    for (let cell = 0; cell < obstacles.length; cell++) {
      if (obstacles[cell] && !this.has(cell)) this.ranks[cell] = this.inputs[cell] = BLOCKED;
    }
  }
}

class Text {
  constructor(data, turns) {
    this.name = data.name;
    this.kind = data.kind;
    this.plant = new Plant(data.plant);
    this.turns = turns.map((columns) => new Turn(this.plant.cells, columns));
    this.obstacles = this.plant.obstacleCells();
    if (this.plant.obstacles.length) this.turns.forEach((turn) => turn.block(this.obstacles));
    this.keeps = this.kind === "table" && this.plant.goal === "keep";
    this.greatest = Math.max(0, ...this.turns.map((turn) => turn.greatest));
  }

  static async read(data) {
    const columns = async ({ count, widths, rows }) => columnsOf(await unpacked(rows), count, widths);
    return new Text(data, await Promise.all(data.turns.map(columns)));
  }

  /** The number of a turn, the last one where another text has more. */
  number(turn) {
    return Math.min(turn, this.turns.length - 1);
  }

  turn(turn) {
    return this.turns[this.number(turn)];
  }

  /** Rank and input of a cell's row, null where there is none of these; or null without a row. */
  row(turn, cell) {
    const rows = this.turn(turn);
    if (cell === null || !rows || !rows.has(cell)) return null;
    const rank = rows.ranks[cell], input = rows.inputs[cell];
    return { rank: rank === NO_RANK ? null : rank, input: input === NO_INPUT ? null : input };
  }

  /** Whether a cell lies in the target of a turn, and has a row for the next one. */
  isArrival(turn, cell) {
    if (this.kind !== "patrol") return false;
    const at = this.number(turn);
    return this.turns[this.behind(at)].has(cell) && this.plant.isWithin(cell, this.plant.targets[at]);
  }

  behind(turn) {
    return (turn + 1) % this.turns.length;
  }

  /** Whether a step into a cell goes on well. */
  goesOn(turn, cell) {
    return this.turn(turn).has(cell) || this.isArrival(turn, cell);
  }

  /** How many samples suffice from a cell from which it goes on well. */
  left(turn, cell) {
    return this.isArrival(turn, cell) ? 0 : Math.max(this.turn(turn).ranks[cell], 0);
  }

  /** What a row promises, in one word. */
  get good() {
    return this.keeps ? "kept" : "won";
  }
}
