"use strict";
const table = document.getElementById("classes");
const body = table.tBodies[0];
const search = document.getElementById("search");
const place = document.getElementById("open");
const routers = JSON.parse(document.getElementById("routers").textContent);

function valueOf(row, column) {
  const cell = row.cells[column];
  return cell.dataset.value ?? cell.textContent.trim();
}

function sortBy(heading) {
  const column = heading.cellIndex;
  const direction = heading.getAttribute("aria-sort") === "ascending" ? "descending" : "ascending";
  const sign = direction === "ascending" ? 1 : -1;
  const compare = new Intl.Collator("en", { numeric: true }).compare;
  const rows = Array.from(body.rows).map((row) => [valueOf(row, column), row]);
  rows.sort((one, other) => sign * compare(one[0], other[0]));
  body.append(...rows.map(([, row]) => row));
  for (const each of table.tHead.rows[0].cells) each.setAttribute("aria-sort", each === heading ? direction : "none");
}

// An address or the base of a prefix as a number.
function numberOf(address) {
  return address.split(".").reduce((number, part) => 256 * number + Number(part), 0);
}

// Whether a text has a word, or a prefix around the address that the word is.
function tells(text, word) {
  if (text.includes(word)) return true;
  if (!/^\d+(\.\d+){3}$/.test(word)) return false;
  return Array.from(text.matchAll(/(\d+(?:\.\d+){3})\/(\d+)/g)).some(([, base, length]) => {
    const size = 2 ** (32 - Number(length));
    return Math.floor(numberOf(word) / size) === Math.floor(numberOf(base) / size);
  });
}

function filter() {
  const wanted = search.value.trim().toLowerCase().split(/\s+/);
  let shown = 0;
  for (const row of body.rows) {
    const text = row.textContent.toLowerCase();
    row.hidden = !wanted.every((word) => tells(text, word));
    shown += !row.hidden;
  }
  document.getElementById("shown").textContent = `${shown} of ${body.rows.length} ${body.rows.length === 1 ? "row" : "rows"}`;
}

// The names of routers whose numbers are told as runs, as in "1-3 7".
function named(runs) {
  return runs.split(" ").flatMap((run) => {
    const [first, last = first] = run.split("-").map(Number);
    return routers.slice(first - 1, last);
  });
}

// Puts the names of routers where their numbers stand, and gives the groups by their numbers.
function name(part) {
  const groups = new Map();
  for (const cell of part.querySelectorAll("[data-members]")) {
    const names = named(cell.dataset.members);
    cell.textContent = names.join(" ");
    if (cell.dataset.group) groups.set(cell.dataset.group, names);
  }
  for (const text of part.querySelectorAll("pre")) {
    const lines = (number) => groups.get(number).map((member) => `! member ${member}`).join("\n");
    text.textContent = text.textContent.replace(/^! members (\d+)$/gm, (_, number) => lines(number));
  }
  return groups;
}

function color(picture, groups, {colors, origins, lone}) {
  const fill = {};
  for (const [number, color] of Object.entries(JSON.parse(colors))) for (const member of groups.get(number)) fill[member] = color;
  const [isOrigin, isLone] = [origins, lone].map((names) => new Set(names.split(" ")));
  for (const node of picture.querySelectorAll("g.node")) {
    const name = node.querySelector("text").textContent;
    const shape = node.querySelector("rect");
    // A cost beside a link is a node without a box.
    if (!shape) continue;
    if (fill[name]) shape.setAttribute("fill", fill[name]);
    shape.setAttribute("stroke-width", isOrigin.has(name) ? "3.5" : "1");
    shape.setAttribute("stroke-dasharray", isLone.has(name) ? "5,2" : "none");
  }
}

function open(row) {
  for (const each of body.rows) each.classList.toggle("is-open", each === row);
  place.replaceChildren(document.getElementById(`row-${row.dataset.row}`).content.cloneNode(true));
  place.hidden = false;
  const groups = name(place);
  const large = document.getElementById("large");
  const pictures = place.querySelector(".pictures");
  if (large && pictures) {
    pictures.prepend(large.content.cloneNode(true));
    color(pictures.firstElementChild, groups, pictures.dataset);
  }
  history.replaceState(null, "", `#class-${row.cells[0].dataset.value}`);
}

async function copy(button) {
  const text = button.parentElement.querySelector("pre");
  try {
    await navigator.clipboard.writeText(text.textContent);
    button.textContent = "Copied";
  } catch {
    getSelection().selectAllChildren(text);
    button.textContent = "Selected: copy with the keyboard";
  }
}

table.tHead.addEventListener("click", (event) => {
  const heading = event.target.closest("th");
  if (heading) sortBy(heading);
});
body.addEventListener("click", (event) => open(event.target.closest("tr")));
body.addEventListener("keydown", (event) => {
  if (event.key === "Enter") open(event.target.closest("tr"));
});
search.addEventListener("input", filter);
place.addEventListener("click", (event) => {
  if (event.target.matches("button.copy")) copy(event.target);
  event.target.closest("figure")?.classList.toggle("is-whole");
});
const asked = /^#class-(\d+)$/.exec(location.hash);
const first = Array.from(body.rows).find((row) => asked && row.cells[0].textContent.split(" ").includes(asked[1]));
if (first) open(first);
