"use strict";
// The library's plans for one lost disk, for the picture of docs/generated/index.html; tests/published/page.py
// compares every one of them with the library's. p: rows; k: data disks; lost: a disk, k is P and k + 1 Q.

const WIDTHS = [3, 5, 7, 11, 13, 17, 19, 23, 29, 31];
const KINDS = ["own", "balanced", "relief", "fewest", "rows"];

const mod = (number, p) => ((number % p) + p) % p;
const half = (number, p) => mod((number * (p + 1)) / 2, p);

// The rows that steps of g lead to.
function progression(p, lost, g) {
  const start = half(lost - 1, p), taken = new Set();
  for (let n = 1; n <= (p - 1) / 2; n++) taken.add(mod(start + n * g, p));
  return taken;
}

// The rows of a lost data disk that take a diagonal, by the rules of docs/SCOPE.md.
const DIAGONAL_ROWS = {
  own(p, lost) {
    const taken = new Set([lost, half(lost, p)]), closed = new Set();
    for (let row = 0; row < p && taken.size < (p - 1) / 2; row++) {
      if (taken.has(row) || closed.has(row)) continue;
      const partner = p - 1 - mod(row - lost, p);
      if (partner === row || taken.has(partner)) closed.add(row);
      else taken.add(row), closed.add(partner);
    }
    return taken;
  },
  balanced(p, lost) {
    const start = half(lost - 1 - (p % 4 === 1 ? 1 : 0), p), taken = new Set();
    for (let n = 1; n <= (p - 1) / 2; n++) taken.add(mod(start + n * n, p));
    return taken;
  },
  relief: (p, lost, relieved) => progression(p, lost, 2 * (relieved - lost)),
  fewest(p, lost, relieved, k) {
    const steps = Array.from({ length: (p - 1) / 2 }, (_, n) => progression(p, lost, n + 1));
    const counted = steps.concat([this.own(p, lost), this.balanced(p, lost)]).map((rows) => [readBy(p, k, lost, rows).reads, rows]);
    return counted.reduce((best, other) => (other[0] < best[0] ? other : best))[1];
  },
  rows: () => new Set(),
};

// The steps of a plan, each a row, a kind (0 row set, 1 diagonal) and a set number.
function stepsOf(p, k, lost, taken) {
  const rows = Array.from({ length: p }, (_, row) => row);
  if (lost >= k) return rows.map((row) => [row, lost - k, row]);
  const bySet = rows.filter((row) => !taken.has(row)).map((row) => [row, 0, row]);
  return bySet.concat(rows.filter((row) => taken.has(row)).map((row) => [row, 1, mod(row - lost, p)]));
}

// The cells of a set, each a row and a disk; a diagonal but the first has an extra cell.
function cellsOf(p, k, kind, number) {
  const disks = Array.from({ length: k }, (_, disk) => disk);
  if (kind === 0) return disks.concat(k).map((disk) => [number, disk]);
  const cells = disks.map((disk) => [mod(number + disk, p), disk]).concat([[number, k + 1]]);
  const extra = mod(-2 * number, p);
  return number > 0 && extra < k ? cells.concat([[p - 1 - number, extra]]) : cells;
}

// The plan whose rows `taken` have a diagonal, with what it reads: of each disk and row 1 if for a row set, 2 for a
// diagonal, 3 for both.
function readBy(p, k, lost, taken) {
  const steps = stepsOf(p, k, lost, taken);
  const marks = Array.from({ length: k + 2 }, () => Array(p).fill(0));
  for (const [, set, number] of steps)
    for (const [row, disk] of cellsOf(p, k, set, number)) if (disk !== lost) marks[disk][row] |= 1 << set;
  const shares = marks.map((column) => column.filter((mark) => mark > 0).length);
  return { steps, marks, shares, reads: shares.reduce((sum, share) => sum + share) };
}

function planOf(p, k, lost, kind, relieved) {
  return readBy(p, k, lost, lost < k ? DIAGONAL_ROWS[kind](p, lost, relieved, k) : new Set());
}
