"use strict";
// Draws the plan that the controls name, and keeps it in the page's address, so that a plan can be linked.

const SIDE = 30, LEFT = 40, TOP = 30, BARS = 110;
const MARKS = [["unread", "."], ["row", "-"], ["diagonal", "/"], ["both", "#"]];
const find = (id) => document.getElementById(id);
const number = (id) => Number(find(id).value);

function options(id, values, names, wanted) {
  find(id).replaceChildren(...values.map((value) => new Option(names(value), value)));
  find(id).value = values.map(String).includes(String(wanted)) ? wanted : values[0];
}

const diskName = (k, disk) => (disk < k ? String(disk) : disk === k ? "P" : "Q");
const upTo = (from, past) => Array.from({ length: past - from }, (_, i) => from + i);

// The controls for a width, with what was chosen kept where there still is such a choice.
function settle(chosen) {
  options("width", WIDTHS, String, chosen.width);
  const p = number("width");
  options("disks", upTo(2, p + 1), String, chosen.disks ?? p);
  const k = number("disks");
  options("lost", upTo(0, k + 2), (disk) => diskName(k, disk), chosen.lost);
  find("kind").value = KINDS.includes(chosen.kind) ? chosen.kind : KINDS[0];
  options("relieved", upTo(0, k).filter((disk) => disk !== number("lost")), String, chosen.relieved);
  find("relief").hidden = find("kind").value !== "relief";
}

function text(x, y, words, kind = "") {
  return `<text x="${x}" y="${y}" class="${kind}">${words}</text>`;
}

function cell(x, y, [kind, letter]) {
  const middle = text(x + SIDE / 2 - 2, y + SIDE / 2 + 3, letter);
  return `<rect x="${x}" y="${y}" width="${SIDE - 4}" height="${SIDE - 4}" rx="4" class="${kind}"/>${middle}`;
}

// The column of a disk: its name, its cells, and below them the bar of its share.
function column(p, k, lost, plan, disk) {
  const x = LEFT + disk * SIDE, share = plan.shares[disk], middle = x + SIDE / 2 - 2;
  const cells = plan.marks[disk].map((mark, row) => cell(x, TOP + row * SIDE, disk === lost ? ["lost", "x"] : MARKS[mark]));
  const foot = TOP + p * SIDE + 24 + BARS, tall = (BARS * share) / p;
  const most = share === Math.max(...plan.shares) ? "bar most" : "bar";
  const bar = `<rect x="${x}" y="${foot - tall}" width="${SIDE - 4}" height="${tall}" rx="3" class="${most}"/>`;
  return text(middle, TOP - 10, diskName(k, disk)) + cells.join("") + bar + text(middle, foot - tall - 6, disk === lost ? "x" : share);
}

function picture(p, k, lost, plan) {
  const wide = LEFT + (k + 2) * SIDE + 50, high = TOP + p * SIDE + BARS + 34;
  const sets = plan.steps.map(([row, set, n]) => text(LEFT + (k + 2) * SIDE + 6, TOP + row * SIDE + 18, "RD"[set] + " " + n, "start"));
  const rows = upTo(0, p).map((row) => text(LEFT - 8, TOP + row * SIDE + 18, row, "end"));
  const columns = upTo(0, k + 2).map((disk) => column(p, k, lost, plan, disk));
  return `<svg viewBox="0 0 ${wide} ${high}" style="max-width:${wide}px" role="img" aria-labelledby="summary">${columns.join("")}${rows.join("")}${sets.join("")}</svg>`;
}

function summary(p, k, lost, plan) {
  const rows = p * k, less = (100 * (rows - plan.reads)) / rows, most = Math.max(...plan.shares);
  const fewer = plan.reads === rows ? "as many as by rows alone" : `${less.toFixed(1)} % fewer than the ${rows} of rows alone`;
  const than = lost < k ? fewer : "all that hold film";
  return `Disk ${diskName(k, lost)} is lost: ${plan.reads} of ${p * (k + 1)} surviving cells are read, ${than}. The most-read disk gives ${most} of its ${p}.`;
}

function command(p, k, lost, kind, relieved) {
  const words = `cuzhaveli plan -p ${p}${k < p ? ` -k ${k}` : ""} -d ${diskName(k, lost)}`;
  const ends = { own: "", balanced: " --balanced", relief: ` --relieve ${relieved}`, fewest: " --fewest" };
  return kind in ends ? words + ends[kind] : "";
}

function show() {
  const [p, k, lost, kind, relieved] = [number("width"), number("disks"), number("lost"), find("kind").value, number("relieved")];
  const plan = planOf(p, k, lost, kind, relieved);
  find("picture").innerHTML = picture(p, k, lost, plan);
  find("summary").textContent = summary(p, k, lost, plan) + (lost >= k ? " For P and Q every kind is this plan." : "");
  find("command").textContent = command(p, k, lost, kind, relieved);
}

function chosen() {
  const kept = new URLSearchParams(location.hash.slice(1));
  return kept.size ? Object.fromEntries(kept) : { width: 5, disks: 5, lost: 1, kind: "own" };
}

function changed(event) {
  const ids = ["width", "disks", "lost", "kind", "relieved"];
  const now = Object.fromEntries(ids.map((id) => [id, find(id).value]));
  if (event.target.id === "width") delete now.disks;
  settle(now);
  history.replaceState(null, "", "#" + new URLSearchParams(ids.map((id) => [id, find(id).value])));
  show();
}

find("controls").addEventListener("change", changed);
addEventListener("hashchange", () => (settle(chosen()), show()));
settle(chosen());
show();
