// Whole numbers: doubles where all numbers of a plant stay below 2^53, else BigInt. Operators serve both alike.

/** The number of a JSON value: a string of a plant with wide numbers is a BigInt. */
function whole(value) {
  return typeof value === "string" ? BigInt(value) : value;
}

/** The quotient rounded down; the divisor is above 0. */
function floorDivide(a, b) {
  if (typeof a === "bigint") {
    const quotient = a / b;
    return a % b < 0n ? quotient - 1n : quotient;
  }
  const quotient = Math.floor(a / b);
  const rest = a - quotient * b;
  return rest < 0 ? quotient - 1 : rest >= b ? quotient + 1 : quotient;
}

function ceilDivide(a, b) {
  return -floorDivide(-a, b);
}

function lesser(a, b) {
  return a <= b ? a : b;
}

function greater(a, b) {
  return a >= b ? a : b;
}

function sizeOf(a) {
  return a < 0 ? -a : a;
}

/** The value of `lut` with these points, as docs/FORMATS.md has it. */
function lutValue(points, value) {
  let k = 0;
  while (k < points.length && points[k][0] <= value) k++;
  if (k === 0) return points[0][1];
  if (k === points.length) return points[k - 1][1];
  const [x, y] = points[k - 1], [nextX, nextY] = points[k];
  return y + floorDivide((nextY - y) * (value - x), nextX - x);
}
