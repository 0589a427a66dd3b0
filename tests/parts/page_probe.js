// What the tests ask of a page that they have opened.

const probe = {
  desk: () => gaffcurrant.desk,

  rows: (turn, cells) => cells.map((cell) => {
    const [text] = gaffcurrant.texts, row = text.row(turn, cell);
    return [...(row ? [row.rank, row.input] : [-1, -1]), text.obstacles[cell]];
  }),

  verdicts: (turn, pairs) => pairs.map(([cell, vector]) => {
    const one = gaffcurrant.verdictsOf(gaffcurrant.texts[0], turn, cell)[vector];
    const lost = [...one.obstacles, ...one.others, ...(one.isItself ? [cell] : [])].sort((a, b) => a - b).slice(0, 50);
    const within = one.kind === "good" ? one.within : 0;
    return [one.kind, one.fan, one.lost, lost, within, one.box.map((ends) => ends.map(String))];
  }),

  /** The trace of a run from a state whose numbers are words. */
  trace: (words, how) => {
    const [text] = gaffcurrant.texts, state = words.map((word) => text.plant.number(word));
    return gaffcurrant.traceOf(gaffcurrant.runOf(text, state, how));
  },

  /** The middle of a cell on a map's canvas. */
  middle: (map, cell) => {
    const places = map.plant.placesOf(cell), { x, y } = map.slice;
    return map.point(places[x] + 0.5, y < 0 ? 0.5 : places[y] + 0.5);
  },

  /** The middle of a cell on the screen. */
  onScreen: (cell) => {
    const [map] = gaffcurrant.desk.maps, box = map.canvas.getBoundingClientRect(), at = probe.middle(map, cell);
    return [box.left + at[0], box.top + at[1]];
  },

  /** The colours that are drawn at the middles of cells. */
  colours: (cells) => cells.map((cell) => {
    const [map] = gaffcurrant.desk.maps, at = probe.middle(map, cell).map((one) => Math.floor(one * map.ratio));
    return [...map.canvas.getContext("2d").getImageData(...at, 1, 1).data].slice(0, 3);
  }),

  /** The pixels of the map of differences, of two states, at the first cells. */
  differences: (count) => {
    const map = gaffcurrant.desk.maps[2], { plant } = map, pixels = map.pixelsOf(gaffcurrant.desk.view, map.slice);
    return Array.from({ length: count }, (_, cell) => {
      const [x, y] = plant.placesOf(cell);
      return pixels[(plant.counts[1] - 1 - y) * plant.counts[0] + x];
    });
  },

  /** How far the ends of the ways of a run are at most from its samples, in places; NaN where the ways are straight. */
  gap: (start) => {
    const { desk } = gaffcurrant, { plant } = desk.view;
    desk.run(start);
    const [{ ways, samples }] = desk.runsNow();
    const apart = (parts, { state }) => Math.max(...parts.map((part, i) => Math.abs(part - plant.partOf(i, state[i]))));
    if (ways.length < 3 || ways[0].length < 9) return NaN;
    const gaps = ways.map((way, k) => [apart(way[0], samples[k]), apart(way[way.length - 1], samples[k + 1])]);
    return Math.max(...gaps.flat());
  },

  /** Whether the panel shows a cell; a little later than the view does. */
  panelOf: (cell) => [...document.querySelectorAll("#panel dl.cell dd")].pop()?.textContent === counted(cell),

  set: (id, value) => {
    const one = document.getElementById(id);
    one.value = value;
    one.dispatchEvent(new Event("change", { bubbles: true }));
  },

  slide: (value) => {
    const slider = document.querySelector("#sliders input");
    slider.value = value;
    slider.dispatchEvent(new Event("input", { bubbles: true }));
    return Number(slider.max);
  },

  /** How long each frame takes, in milliseconds, after something was done for it. */
  framesOf: async (count, act) => {
    const frame = () => new Promise(requestAnimationFrame), times = [];
    await frame();
    for (let k = 0; k < count; k++) {
      const before = performance.now();
      act(k);
      await frame();
      times.push(performance.now() - before);
    }
    return times;
  },

  /** Frames while the first slider moves. */
  frames: (count) => {
    const most = probe.slide(0);
    return probe.framesOf(count, (k) => probe.slide(k % (most + 1)));
  },

  /** To compare with: frames in which as many pixels as the map has cells are made of random numbers, and drawn
   * instead of it. */
  plainFrames: (count) => {
    const [{ canvas, slice }] = gaffcurrant.desk.maps;
    const board = document.createElement("canvas"), pen = canvas.getContext("2d");
    [board.width, board.height] = [slice.wide, slice.high];
    const image = new ImageData(slice.wide, slice.high), pixels = new Uint32Array(image.data.buffer);
    return probe.framesOf(count, () => {
      for (let at = 0; at < pixels.length; at++) pixels[at] = Math.random() * 2 ** 32;
      board.getContext("2d").putImageData(image, 0, 0);
      pen.drawImage(board, 0, 0, canvas.width, canvas.height);
    });
  },

  /** What is shown, to be compared: the link, the run, the cell, an axis and a slider. */
  shown: () => [probe.desk().view.link(), ...["trace", "panel"].map((id) => document.getElementById(id).textContent),
    document.getElementById("axis-0").value, document.querySelector("#sliders input").value],
};
