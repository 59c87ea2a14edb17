"use strict";
// Lays out the chosen round beside the case sheet. The moves are made again from the
// start of the log; the lines were read before the page was written.

const LINE = 27;
// What a barred place holds in the table: it is below every weight, so that the greatest one of a scope is never barred.
const BARRED = -2000000000;
const STARTS = [0, 2, 6, 10, 14];
const ENDS = [2, 6, 10, 14, 26];
const byId = (id) => document.getElementById(id);
const sheet = byId("case").textContent;
const log = byId("log").textContent;
const sheetLines = sheet.length / LINE;

function row(text, line) {
  return text.substr(line * LINE, LINE - 1);
}

function column(text, line, at) {
  return Number(text.substring(line * LINE + STARTS[at], line * LINE + ENDS[at]));
}

const n = column(sheet, 0, 1);
const d = column(sheet, 0, 2);
const m = column(sheet, 0, 3);
const places = n * d + m * d * d;

function sheetLine(place) {
  if (place < n * d) return 1 + place;
  const pair = Math.floor((place - n * d) / (d * d));
  return pairLine(pair) + 1 + ((place - n * d) % (d * d));
}

function pairLine(pair) {
  return 1 + n * d + pair * (d * d + 1);
}

function span(scope) {
  if (scope < n) return [scope * d, scope * d + d];
  const first = n * d + (scope - n) * d * d;
  return [first, first + d * d];
}

const pairEnds = [];
for (let pair = 0; pair < m; pair++) {
  pairEnds.push([column(sheet, pairLine(pair), 2), column(sheet, pairLine(pair), 3)]);
}

const firstLines = [0];
const ceilings = [0];
for (let line = 0; line < log.length / LINE; line++) {
  if (column(log, line, 0) !== 4) continue;
  firstLines.push(line + 1);
  ceilings.push(column(log, line, 4));
}
const rounds = firstLines.length - 1;
const pairRounds = new Set(JSON.parse(byId("pair-rounds").textContent));
// The void line with which the log ends, or null: its line, its link and the scopes that it raises.
const voidLine = JSON.parse(byId("void").textContent);

// ---- moves

function movesOf(round) {
  const moves = [];
  let line = firstLines[round];
  while (line < firstLines[round + 1] - 1) {
    const move = { line, kind: column(log, line, 0), amount: column(log, line, 4) };
    if (move.kind === 1) {
      move.pair = column(log, line, 1);
      move.end = column(log, line, 2);
      move.value = column(log, line, 3);
      line += 1;
    } else {
      const count = column(log, line, 2);
      move.link = column(log, line, 1);
      move.raised = [];
      for (let k = 1; k <= count; k++) move.raised.push(column(log, line + k, 1));
      line += 1 + count;
    }
    moves.push(move);
  }
  return moves;
}

function greatest(table, scope) {
  const [from, to] = span(scope);
  let top = table[from];
  for (let place = from + 1; place < to; place++) top = Math.max(top, table[place]);
  return top;
}

function bars(table, scope) {
  return table.slice(...span(scope)).filter((one) => one === BARRED).length;
}

// Whether a place of a pair uses a channel that is barred at its link.
function barredEnd(table, place) {
  const at = place - n * d;
  const channels = [Math.floor((at % (d * d)) / d), at % d];
  return pairEnds[Math.floor(at / (d * d))].some((link, end) => table[link * d + channels[end]] === BARRED);
}

// What is barred stays barred.
function add(table, place, amount) {
  if (table[place] !== BARRED) table[place] += amount;
}

function make(table, move) {
  if (move.kind === 1) {
    for (const place of shiftPlaces(move)) add(table, place, -move.amount);
    add(table, pairEnds[move.pair][move.end] * d + move.value, move.amount);
    return;
  }
  const own = greatest(table, move.link);
  for (let place = move.link * d; place < move.link * d + d; place++) {
    if (table[place] === own) table[place] -= move.amount;
  }
  for (const scope of move.raised) {
    const top = greatest(table, scope);
    const [from, to] = span(scope);
    for (let place = from; place < to; place++) {
      if (table[place] !== top) add(table, place, move.amount);
    }
  }
}

function shiftPlaces(move) {
  const [from] = span(n + move.pair);
  const found = [];
  for (let other = 0; other < d; other++) {
    found.push(from + (move.end === 0 ? move.value * d + other : other * d + move.value));
  }
  return found;
}

function startTable() {
  const table = new Int32Array(places);
  for (let place = 0; place < places; place++) {
    const line = sheetLine(place);
    table[place] = column(sheet, line, 0) > 13 ? BARRED : column(sheet, line, 4);
  }
  return table;
}

const started = startTable();
for (let scope = 0; scope < n + m; scope++) ceilings[0] += greatest(started, scope);
let reached = { round: 0, table: started.slice() };

function tableBefore(round) {
  if (round < reached.round) reached = { round: 0, table: started.slice() };
  for (; reached.round < round; reached.round++) {
    for (const move of movesOf(reached.round)) make(reached.table, move);
  }
  return reached.table.slice();
}

// ---- words

const digits = new Intl.NumberFormat("en-US");

function number(value) {
  return digits.format(value).replace("-", "\u2212");
}

function weight(value) {
  return value === BARRED ? '<span class="bar">barred</span>' : number(value);
}

function counted(count, one) {
  return number(count) + " " + one + (count === 1 ? "" : "s");
}

function scopeName(scope) {
  if (scope < n) return "link " + scope;
  const [low, high] = pairEnds[scope - n];
  return `pair ${scope - n} (links ${low} and ${high})`;
}

function barsWords(table, scope) {
  return bars(table, scope) ? `; ${number(bars(table, scope))} barred` : "";
}

function moveWords(move) {
  if (move.kind === 2) {
    return `Press link ${move.link} by ${number(move.amount)}, ${counted(move.raised.length, "scope")} raised`;
  }
  const link = pairEnds[move.pair][move.end];
  return `Shift ${number(move.amount)} from pair ${move.pair} to channel ${move.value} of link ${link}`;
}

// ---- rows of the sheet

function weightRow(place, before, after, why) {
  const change = after - before;
  const kind = change < 0 ? "down" : change > 0 ? "up" : "same";
  return (
    `<tr class="${kind}"><td class="no">${sheetLine(place)}</td>` +
    `<td class="text">${row(sheet, sheetLine(place))}</td><td class="weight">${weight(before)}</td>` +
    `<td class="weight">${weight(after)}</td><td class="why">${why}</td></tr>`
  );
}

function rowTable(rows) {
  return (
    '<table class="rows"><tr><th class="no">line</th><th class="text">row of the case sheet</th>' +
    '<th class="weight">before</th><th class="weight">after</th><th></th></tr>' +
    rows.join("") + "</table>"
  );
}

function pairRow(scope) {
  if (scope < n) return "";
  const line = pairLine(scope - n);
  return `<tr class="same"><td class="no">${line}</td><td class="text">${row(sheet, line)}</td></tr>`;
}

function signed(change) {
  return (change > 0 ? "+" : "") + number(change);
}

function pressedRows(scope, own, before, after) {
  const top = greatest(before, scope);
  return scopeRows(scope, before, after, (place) => {
    const change = after[place] - before[place];
    if (before[place] === BARRED) return own ? "" : "closed";
    if (change === 0) return before[place] === top ? "active" : "";
    return (own ? "active " : "closed ") + signed(change);
  });
}

function shiftedRows(scope, before, after) {
  const top = greatest(before, scope);
  const now = greatest(after, scope);
  return scopeRows(scope, before, after, (place) => {
    const change = after[place] - before[place];
    const words = change === 0 ? [] : [signed(change)];
    if (before[place] === top) words.unshift("active");
    if (scope >= n && after[place] === now) words.push("greatest now");
    if (scope >= n && after[place] !== BARRED && barredEnd(after, place)) words.push("with a barred channel");
    return words.join(", ");
  });
}

function scopeRows(scope, before, after, word) {
  const [from, to] = span(scope);
  const tables = [];
  const each = scope >= n && d > 4 ? d : to - from;
  for (let first = from; first < to; first += each) {
    const rows = first === from ? [pairRow(scope)] : [];
    for (let place = first; place < first + each; place++) {
      rows.push(weightRow(place, before[place], after[place], word(place)));
    }
    tables.push(rowTable(rows));
  }
  return '<div class="tables">' + tables.join("") + "</div>";
}

function touched(scope, before, after) {
  const [from, to] = span(scope);
  let changed = 0;
  for (let place = from; place < to; place++) if (before[place] !== after[place]) changed++;
  return [changed, to - from];
}

function folded(title, inner, unfold) {
  return `<details class="scope"${unfold ? " open" : ""}><summary>${title}</summary>${inner}</details>`;
}

// ---- blocks: a line of the log beside its rows

function block(lines, words, rows) {
  const said = lines.map((line) => `<span class="no">${sheetLines + line}</span><code>${row(log, line)}</code>`);
  return (
    `<section class="block"><div class="said">${said.join("")}${words ? `<p>${words}</p>` : ""}</div>` +
    `<div class="beside">${rows}</div></section>`
  );
}

function pressBlocks(move, before, after, unfold) {
  const [changed, all] = touched(move.link, before, after);
  const lowered = `${changed} of ${counted(all, "channel")} active, lowered by ${number(move.amount)}`;
  const title = `Press link ${move.link}: ${lowered}${barsWords(before, move.link)}`;
  const rows = folded(title, pressedRows(move.link, true, before, after), true);
  const blocks = [block([move.line], moveWords(move) + ".", rows)];
  move.raised.forEach((scope, k) => {
    const [up, of] = touched(scope, before, after);
    const head = `Raise ${scopeName(scope)}: ${up} of ${counted(of, "weight")} closed, raised by ${number(move.amount)}${barsWords(before, scope)}`;
    const rows = pressedRows(scope, false, before, after);
    blocks.push(block([move.line + 1 + k], "", folded(head, rows, unfold)));
  });
  return blocks;
}

function shiftBlock(move, before, after) {
  const link = pairEnds[move.pair][move.end];
  const word = (place) => (before[place] === BARRED ? "" : signed(after[place] - before[place]));
  const shiftRow = (place) => weightRow(place, before[place], after[place], word(place));
  const rows = [shiftRow(link * d + move.value), pairRow(n + move.pair), ...shiftPlaces(move).map(shiftRow)];
  const title = `Shift between channel ${move.value} of link ${link} and ${scopeName(n + move.pair)}`;
  return block([move.line], moveWords(move) + ".", folded(title, rowTable(rows), true));
}

// The lines of each end beside the link that they empty, then the pair that takes its weights up.
function pairBlocks(moves, before, after) {
  const pair = moves[0].pair;
  const blocks = pairEnds[pair].map((link, end) => {
    const lines = moves.filter((move) => move.end === end).map((move) => move.line);
    const [changed, all] = touched(link, before, after);
    const title = `Link ${link}: ${changed} of ${counted(all, "channel")} emptied into pair ${pair}${barsWords(before, link)}`;
    const words = lines.length ? "" : `No line: the link weighs 0 on every channel${bars(before, link) ? " that is not barred" : ""}.`;
    return block(lines, words, folded(title, shiftedRows(link, before, after), true));
  });
  const title = `Pair ${pair} takes up the weights of both links${barsWords(before, n + pair)}`;
  return [...blocks, block([], "", folded(title, shiftedRows(n + pair, before, after), true))];
}

function pairWords(pair, before, after) {
  const [low, high] = pairEnds[pair];
  const [first, second, third] = [low, high, n + pair].map((scope) => greatest(before, scope));
  const sum = first + second + third;
  return (
    `<p>A pair round of ${scopeName(n + pair)}: the whole weights of both links are moved into the pair, and no plan\u2019s total ` +
    `changes. The three greatest weights, ${number(first)} of link ${low}, ${number(second)} of link ${high} and ${number(third)} of the ` +
    `pair, add up to ${number(sum)}. They do not go together: ${togetherWords(pair, after, sum)}</p>`
  );
}

// What two channels bring at most. A greater weight of the pair, with a channel that is barred at its link, counts in the ceiling too.
function togetherWords(pair, after, sum) {
  const now = greatest(after, n + pair);
  const [from] = span(n + pair);
  const brought = [];
  for (let place = from; place < from + d * d; place++) {
    if (after[place] !== BARRED && !barredEnd(after, place)) brought.push(after[place]);
  }
  const best = Math.max(...brought);
  const some = brought.length < d * d;
  const most = brought.length
    ? `whichever two channels the links ${some ? "may " : ""}take, the three weights make ${number(best)} at most.`
    : "every two channels are barred, at a link or in the pair.";
  if (best === now) return `${most} The ceiling falls by the difference, ${number(sum - now)}.`;
  return (
    `${most} The pair\u2019s greatest weight is ${number(now)} after the round, though: a combination with a barred channel counts in the ` +
    `ceiling too. So the ceiling falls by ${number(sum - now)}.`
  );
}

function moveBlocks(moves, table) {
  const scopes = moves.flatMap((move) => move.raised || []);
  const total = scopes.reduce((sum, scope) => sum + (scope < n ? d : d * d), 0);
  const blocks = [];
  for (const move of moves) {
    const before = table.slice();
    make(table, move);
    if (move.kind === 1) blocks.push(shiftBlock(move, before, table));
    else blocks.push(...pressBlocks(move, before, table, total <= 140));
  }
  return blocks;
}

function layOut(round) {
  const moves = movesOf(round);
  const before = tableBefore(round);
  const after = tableBefore(round + 1);
  const paired = pairRounds.has(round);
  const words = paired ? pairWords(moves[0].pair, before, after) : "";
  const blocks = paired ? pairBlocks(moves, before, after) : moveBlocks(moves, before);
  const fall = ceilings[round] - ceilings[round + 1];
  const bound = `<p>Bound: the ceiling is ${number(ceilings[round + 1])}, ${number(fall)} below the round\u2019s start.</p>`;
  blocks.push(block([firstLines[round + 1] - 1], "", bound));
  return (
    `<h3>Round ${number(round)}${paired ? ", a pair round" : ""}: the ceiling falls by ${number(fall)}, from ` +
    `${number(ceilings[round])} to ${number(ceilings[round + 1])}</h3>${words}<div class="heads"><span><span class="no">line</span>of the log</span>` +
    `<span>The rows of the case sheet that the line touches</span></div>` + blocks.join("")
  );
}

// ---- the drawings show the chosen round

function unmark() {
  for (const element of document.querySelectorAll("#network .link, #network .pair")) {
    element.classList.remove("pressed", "raised", "shifted", "emptied");
  }
}

function markRaised({ link, raised }) {
  for (const scope of raised) byId("s" + scope).classList.add("raised");
  byId("s" + link).classList.add("pressed");
}

function mark(round) {
  unmark();
  const moves = movesOf(round);
  if (pairRounds.has(round)) for (const link of pairEnds[moves[0].pair]) byId("s" + link).classList.add("emptied");
  for (const move of moves) {
    if (move.kind === 1) byId("s" + (n + move.pair)).classList.add("shifted");
    else markRaised(move);
  }
  const { left, right, rounds: all } = byId("curve").dataset;
  const width = (right - left) / all;
  byId("chosen").setAttribute("x", Number(left) + round * width - (width < 3 ? 1.5 : 0));
  byId("chosen").setAttribute("width", Math.max(width, 3));
  byId("chosen").classList.toggle("wide", width > 12);
}

// In place of a round the network shows the void line, until a round is chosen again.
function showVoid() {
  unmark();
  markRaised(voidLine);
  byId("chosen").setAttribute("width", 0);
}

let shown = 0;

function show(round) {
  shown = Math.max(0, Math.min(rounds - 1, round || 0));
  byId("round").value = shown;
  byId("line").value = sheetLines + firstLines[shown];
  byId("view").innerHTML = layOut(shown);
  byId("back").disabled = shown === 0;
  byId("on").disabled = shown === rounds - 1;
  mark(shown);
}

function roundOfLine(line) {
  let low = 0;
  let high = rounds - 1;
  while (low < high) {
    const middle = (low + high + 1) >> 1;
    if (firstLines[middle] <= line - sheetLines) low = middle;
    else high = middle - 1;
  }
  return low;
}

function listMoves(round) {
  const moves = movesOf(round);
  if (pairRounds.has(round)) {
    const [low, high] = pairEnds[moves[0].pair];
    return `Pair round of pair ${moves[0].pair}: links ${low} and ${high} are emptied into it`;
  }
  const words = moves.slice(0, 3).map(moveWords).join("; ");
  return words + (moves.length > 3 ? `; and ${counted(moves.length - 3, "more move")}` : "");
}

function listRows(from, to) {
  const rows = [];
  for (let round = from; round < to; round++) {
    rows.push(
      `<tr><td><a href="#round-${round}">${number(round)}</a></td><td class="weight">${number(ceilings[round + 1])}</td>` +
      `<td class="weight">${number(ceilings[round] - ceilings[round + 1])}</td><td>${listMoves(round)}</td></tr>`
    );
  }
  return (
    '<table class="list"><tr><th>round</th><th class="weight">ceiling after it</th><th class="weight">fall</th>' +
    `<th>moves</th></tr>${rows.join("")}</table>`
  );
}

function list() {
  const each = rounds <= 10000 ? 100 : 1000;
  for (let from = 0; from < rounds; from += each) {
    const to = Math.min(rounds, from + each);
    const details = document.createElement("details");
    const names = to === from + 1 ? `Round ${number(from)}` : `Rounds ${number(from)} to ${number(to - 1)}`;
    details.innerHTML = `<summary>${names}: from ${number(ceilings[from])} to ${number(ceilings[to])}</summary>`;
    const fill = () => {
      if (details.childElementCount === 1) details.insertAdjacentHTML("beforeend", listRows(from, to));
    };
    details.addEventListener("toggle", fill);
    byId("list").append(details);
    details.open = rounds <= 20;
  }
}

byId("choose").addEventListener("submit", (event) => event.preventDefault());
byId("back").addEventListener("click", () => show(shown - 1));
byId("on").addEventListener("click", () => show(shown + 1));
byId("round").addEventListener("change", (event) => show(Math.floor(event.target.value)));
byId("line").addEventListener("change", (event) => {
  const line = Number(event.target.value);
  if (!voidLine || line - sheetLines < voidLine.line) return show(roundOfLine(line));
  showVoid();
  byId("void-line").scrollIntoView();
});
if (voidLine) {
  byId("show-void").addEventListener("click", () => {
    showVoid();
    byId("network").scrollIntoView();
  });
}
byId("unfold").addEventListener("click", () => {
  for (const details of document.querySelectorAll("#view details")) details.open = true;
});
byId("curve").addEventListener("click", (event) => {
  const svg = byId("curve");
  const { left, right, rounds: all } = svg.dataset;
  const box = svg.getBoundingClientRect();
  const x = ((event.clientX - box.left) / box.width) * svg.viewBox.baseVal.width;
  show(Math.floor(((x - left) / (right - left)) * all));
});
function follow() {
  const named = /^#round-(\d+)$/.exec(location.hash);
  show(named ? Number(named[1]) : 0);
  if (named) byId("choose").scrollIntoView();
}

window.addEventListener("hashchange", follow);
list();
follow();
