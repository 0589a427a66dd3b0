// Units: what the number 1 of a state or an input stands for in the model's own units, and how numbers are written.

class Units {
  constructor(data) {
    this.sizes = data ? data.sizes : {};
    this.words = data ? data.words : {};
    this.exact = data ? data.exact : [];
    this.areKnown = Boolean(data);
  }

  size(name) {
    return this.sizes[name] ?? 1;
  }

  /** A whole number in the model's units. */
  value(name, number) {
    return Number(number) * this.size(name);
  }

  /** How far the middle of what a whole number stands for is above it: what is a whole number by itself is a point. */
  half(name) {
    return this.exact.includes(name) ? 0 : 0.5;
  }

  /** The middle of what a whole number of a state stands for. */
  middle(name, number) {
    return (Number(number) + this.half(name)) * this.size(name);
  }

  /** The place of a value in the model's units along a state's axis, as a fraction. */
  partOf([name, low, , width], value) {
    return (value / this.size(name) + 0.5 - this.half(name) - Number(low)) / Number(width);
  }

  /** The value in the model's units at a fraction of places along a state's axis. */
  valueAt([name, low, , width], part) {
    return (Number(low) + part * Number(width) - 0.5 + this.half(name)) * this.size(name);
  }

  /** The whole number of a value in the model's units: that of the unit it lies in. A value beside a bound by a
   * rounding counts as on it. */
  whole(name, value) {
    const parts = value / this.size(name), near = Math.round(parts);
    return Math.abs(parts - near) < 1e-9 * Math.max(1, Math.abs(parts)) ? near : Math.floor(parts);
  }

  said(name, number) {
    const value = this.areKnown ? decimal(this.value(name, number)) : digits(number);
    return this.words[name] ? `${value} ${this.words[name]}` : value;
  }

  /** Whether a state's numbers are whole: without units, and of a state that is a whole number of units by itself. */
  isWhole(name) {
    return !this.areKnown || this.exact.includes(name);
  }

  /** Where a range ends: its last whole number, or in units where the next number begins. */
  endSaid(name, high) {
    return this.said(name, this.isWhole(name) ? high : Number(high) + 1);
  }

  /** The range of a cell's numbers: whole ones with both ends, in units up to where the next cell begins. */
  range(name, low, high) {
    const first = this.areKnown ? decimal(this.value(name, low)) : digits(low);
    return this.isWhole(name) && low === high ? this.said(name, low) : `${first} to ${this.endSaid(name, high)}`;
  }

  /** A name with what its unit is called. */
  label(name) {
    return this.words[name] ? `${name} in ${this.words[name]}` : name;
  }
}

/** A double without the last digits, which roundings make. */
function decimal(value) {
  return String(Number(value.toPrecision(12))).replace("e+", "e");
}

/** A count with commas between the thousands. */
function counted(count) {
  return String(count).replace(/\B(?=(\d{3})+$)/g, ",");
}

function plural(count, word) {
  return `${counted(count)} ${word}${count === 1 ? "" : "s"}`;
}

/** A cell in words: p 0.3 to 0.4 m, v 1 to 1.1 m/s. */
function cellSaid(plant, units, cell) {
  const low = plant.low(cell), high = plant.high(cell);
  return plant.states.map(([name], i) => `${name} ${units.range(name, low[i], high[i])}`).join(", ");
}

/** An input vector in words: u = 3, v = 0. */
function inputSaid(plant, units, number) {
  const values = plant.vector(number);
  return plant.inputs.map(([name], i) => `${name} = ${units.said(name, values[i])}`).join(", ") || "no input";
}
