// What each input does at a cell, and what stops it: what causes.py and tools/why tell, for the cell that is looked at.

// Successors that are looked at, and cells of each kind that are kept.
const MOST_SUCCESSORS = 200000, KEPT_CELLS = 200;

/** What an input does at a cell. kind: edge, obstacle, itself or onward where it is stopped, else good; leaves: how the
 * box leaves the domain; obstacles and others: cells without a row that it may lead to; comesBack: whether it may lead
 * to the cell itself; fan: how many successors there are. */
function verdictOf(text, turn, cell, vector) {
  const plant = text.plant, box = plant.box(cell, vector);
  const leaves = plant.leaves(box);
  if (leaves.length) return { vector, box, kind: "edge", leaves, obstacles: [], others: [], lost: 0, fan: 0 };
  const extents = plant.extents(box);
  const fan = extents.reduce((product, [first, last]) => product * (last - first + 1), 1);
  const verdict = { vector, box, leaves, fan, obstacles: [], others: [], lost: 0, isItself: false, within: 0 };
  let looked = 0;
  for (const one of plant.cellsOf(extents)) {
    if (++looked > MOST_SUCCESSORS) break;
    if (text.goesOn(turn, one)) verdict.within = Math.max(verdict.within, text.left(turn, one) + 1);
    else noteLost(verdict, one, cell, text.obstacles[one]);
  }
  verdict.comesBack = verdict.isItself && (!text.keeps || verdict.lost === 1);
  verdict.kind = kindOf(verdict);
  return verdict;
}

function kindOf({ obstacles, comesBack, lost }) {
  if (obstacles.length) return "obstacle";
  if (comesBack) return "itself";
  return lost ? "onward" : "good";
}

function noteLost(verdict, one, cell, isObstacle) {
  verdict.lost++;
  if (isObstacle) {
    if (verdict.obstacles.length < KEPT_CELLS) verdict.obstacles.push(one);
  } else if (one === cell) {
    verdict.isItself = true;
  } else if (verdict.others.length < KEPT_CELLS) {
    verdict.others.push(one);
  }
}

const KINDS = ["good", "edge", "obstacle", "itself", "onward"];

/** What all inputs do at a cell; kept for the last asked. */
function verdictsOf(text, turn, cell) {
  const key = `${turn} ${cell}`;
  if (text.verdictsKey !== key) {
    text.verdicts = Array.from({ length: text.plant.vectors }, (_, vector) => verdictOf(text, turn, cell, vector));
    text.verdictsKey = key;
  }
  return text.verdicts;
}

/** How many of some verdicts are of each kind, as pairs of kind and count. */
function countsOf(verdicts) {
  return KINDS.map((kind) => [kind, verdicts.filter((one) => one.kind === kind).length]).filter(([, count]) => count);
}

/** Whether each input that stays in the domain may lead back to a lost cell. */
function isStill(text, verdicts) {
  const enabled = verdicts.filter((one) => one.kind !== "edge");
  return !text.keeps && enabled.length > 0 && enabled.every((one) => one.isItself);
}
