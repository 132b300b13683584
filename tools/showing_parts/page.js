
"use strict";

const data = JSON.parse(document.getElementById("data").textContent);
const sliceAt = new Map(data.slices.map(([line, set, text]) => [line, { kept: numbersOf(data.sets[set]), text }]));
const rows = [];
let chosen = [];

function part(name) {
  return document.getElementById(name);
}

// Numbers that are stored as first numbers and lengths by turns.
function numbersOf(ranges) {
  const found = new Set();
  for (let at = 0; at < ranges.length; at += 2) {
    for (let more = 0; more < ranges[at + 1]; more++) found.add(ranges[at] + more);
  }
  return found;
}

// The slice at a line as a program of its own.
function programAt(line) {
  const { text } = sliceAt.get(line);
  const lines = [];
  for (let at = 0; at < text.length; at += 2) lines.push(...data.texts.slice(text[at], text[at] + text[at + 1]));
  return lines.join("\n");
}

function union() {
  return new Set(chosen.flatMap((line) => [...sliceAt.get(line).kept]));
}

function shared() {
  return new Set([...union()].filter((kept) => chosen.every((line) => sliceAt.get(line).kept.has(kept))));
}

function told(all, both) {
  const of = `${all.size} of ${data.statements} ${data.unit}`;
  if (chosen.length === 0) {
    const left = data.left.length ? `; the first ${data.slices.length} have their slice here` : "";
    return `${data.statements} ${data.unit}${left}`;
  }
  if (chosen.length === 1) return `line ${chosen[0]}: ${of} kept`;
  return `lines ${chosen.join(", ")}: ${of} kept for one of them, ${both.size} for each`;
}

function markOf(line, all, both) {
  const isShared = chosen.length > 1 && both.has(line);
  return (chosen.includes(line) ? "\u25b6" : "") + (isShared ? "\u25c6" : all.has(line) ? "\u25cf" : "");
}

// Shows the slices of the chosen lines.
function render() {
  const all = union();
  const both = shared();
  document.body.classList.toggle("some", chosen.length > 0);
  for (const { line, row, mark } of rows) {
    row.classList.toggle("kept", all.has(line));
    row.classList.toggle("shared", chosen.length > 1 && both.has(line));
    row.classList.toggle("chosen", chosen.includes(line));
    if (sliceAt.has(line)) row.setAttribute("aria-pressed", chosen.includes(line));
    mark.textContent = markOf(line, all, both);
  }
  part("told").textContent = told(all, both);
  part("show").disabled = part("clear").disabled = chosen.length === 0;
}

// Chooses these lines alone, and says so in the address.
function choose(lines) {
  chosen = lines;
  history.replaceState(null, "", lines.length ? "#" + lines.map((line) => `L${line}`).join(",") : location.pathname + location.search);
  render();
}

function toggle(line) {
  choose(chosen.includes(line) ? chosen.filter((other) => other !== line) : [...chosen, line]);
}

function makeRow(text, at) {
  const line = at + 1;
  const row = document.createElement("li");
  const [mark, number, code] = ["mark", "number", "code"].map((name) => {
    const made = document.createElement("span");
    made.className = name;
    return row.appendChild(made);
  });
  row.id = `line-${line}`;
  number.textContent = line;
  code.textContent = text || " ";
  if (sliceAt.has(line)) {
    row.setAttribute("role", "button");
    row.tabIndex = 0;
    row.addEventListener("click", () => { if (getSelection().isCollapsed) toggle(line); });
  }
  rows.push({ line, row, mark });
  return row;
}

// Moves to the next line with a slice in this direction.
function move(step) {
  const lines = data.slices.map(([line]) => line);
  const here = rows.find(({ row }) => row === document.activeElement);
  const from = here ? lines.indexOf(here.line) : step > 0 ? -1 : lines.length;
  const line = lines[Math.min(Math.max(from + step, 0), lines.length - 1)];
  if (line !== undefined) rows[line - 1].row.focus();
}

function onKey(event) {
  if (part("program").open || event.altKey || event.ctrlKey || event.metaKey) return;
  const isRow = document.activeElement.getAttribute("role") === "button";
  if (event.key === "ArrowDown") move(1);
  else if (event.key === "ArrowUp") move(-1);
  else if (isRow && (event.key === "Enter" || event.key === " ")) document.activeElement.click();
  else if (event.key === "Escape") choose([]);
  else return;
  event.preventDefault();
}

// Opens the page at the lines that its address names.
function open() {
  const named = location.hash.slice(1).split(",").map((word) => (/^L[0-9]+$/.test(word) ? Number(word.slice(1)) : 0));
  const lines = named.filter((line, at) => sliceAt.has(line) && named.indexOf(line) === at);
  chosen = lines;
  render();
  if (lines.length) {
    rows[lines[0] - 1].row.scrollIntoView({ block: "center" });
    rows[lines[0] - 1].row.focus({ preventScroll: true });
  }
}

function showProgram() {
  part("text").textContent = programAt(Number(part("of").value));
}

function openProgram() {
  const options = chosen.map((line) => new Option(line, line));
  part("of").replaceChildren(...options);
  part("of").value = chosen[chosen.length - 1];
  showProgram();
  part("program").showModal();
}

async function copyProgram() {
  try {
    await navigator.clipboard.writeText(part("text").textContent);
  } catch {
    getSelection().selectAllChildren(part("text"));
    document.execCommand("copy");
  }
}

function saveProgram() {
  const link = document.createElement("a");
  link.href = URL.createObjectURL(new Blob([part("text").textContent], { type: "text/x-c" }));
  link.download = `${data.file.replace(/\.c$/, "")}.${part("of").value}.c`;
  link.click();
  URL.revokeObjectURL(link.href);
}

document.title = `${data.file}: slices`;
part("file").textContent = data.file;
part("lines").append(...data.lines.map(makeRow));
part("show").addEventListener("click", openProgram);
part("clear").addEventListener("click", () => choose([]));
part("of").addEventListener("change", showProgram);
part("copy").addEventListener("click", copyProgram);
part("save").addEventListener("click", saveProgram);
part("close").addEventListener("click", () => part("program").close());
document.addEventListener("keydown", onKey);
addEventListener("hashchange", open);
open();
