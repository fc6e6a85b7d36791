// The run whose data stands in the page, and how it stood after a turn. All that is shown is the library's answer or state at
// that turn, or was worked out of the two states around it; this program only finds the turn and draws it.
"use strict";

const run = JSON.parse(document.getElementById("data").textContent);
const refusedFile = run.listings.length === 0;
const lastTurn = run.done + (run.refusal && !refusedFile ? 1 : 0);
const part = (id) => document.getElementById(id);
const rowAt = new Map(run.rows.map(([turn, row, reason]) => [turn, { row, reason }]));

// The index of the last entry [turn, ..] whose turn is not after the one given, or -1.
function lastAt(entries, turn) {
  let low = 0, high = entries.length;
  while (low < high) {
    const middle = (low + high) >> 1;
    if (entries[middle][0] <= turn) low = middle + 1; else high = middle;
  }
  return low - 1;
}
const valueAt = (entries, turn) => (lastAt(entries, turn) < 0 ? null : entries[lastAt(entries, turn)][1]);

// The nodes by number after a turn. Two turns are remembered: most steps ask for the one before again.
const remembered = [];
function nodesAt(turn) {
  const bounded = Math.min(turn, run.done);
  let known = remembered.find(([of]) => of === bounded);
  if (!known) {
    const nodes = [];
    for (const changes of run.nodes) {
      if (changes[0][0] > bounded) break;
      nodes.push(valueAt(changes, bounded));
    }
    known = [bounded, nodes];
    remembered.unshift(known);
    remembered.length = Math.min(remembered.length, 2);
  }
  return known[1];
}

const threadAt = (thread, turn) => valueAt(run.threads[thread] || [], Math.min(turn, run.done)) || [0, [], []];
const placeWords = (place) => run.places[place] || "";

// For each thread the turns of its accepted records, and of its starts.
const threadTurns = [[], [], [], []];
run.deeds.forEach(([thread], at) => threadTurns[thread].push([at + 1]));
const threadOperations = [0, 1, 2, 3].map((thread) => run.operations.filter(([of]) => of === thread).map((operation) => [operation[2], operation]));

// The plain table of the answers rule: what a station has after a turn, its depth or -1 where it is out, and the table as words of the set.
const plainOf = (station) => run.plain[station] || [[0, -1]];
const plainWord = (station, depth) => (run.deep ? `${station}=${depth}` : `${station}`);
function plainAt(turn) {
  return Object.keys(run.plain).map(Number).sort((a, b) => a - b).map((station) => [station, valueAt(plainOf(station), turn)])
    .filter(([, depth]) => depth >= 0).map(([station, depth]) => plainWord(station, depth));
}

// The stretches of an operation's span in which its station is in the plain table at one depth, or out: [first turn, last, depth or -1].
function momentsOf([, words, , first, last]) {
  if (!first) return [];
  const end = last || run.done, changes = plainOf(Number(words.split(" ")[1]));
  const within = changes.filter(([turn]) => turn > first && turn <= end);
  return [[first, valueAt(changes, first)], ...within].map(([turn, depth], at) => [turn, at < within.length ? within[at][0] - 1 : end, depth]);
}

// The stretches of a query's span in which the plain table has just what it found from its station to its upper end.
function agreements([, words, , first, last], found) {
  const [, lower, upper] = words.split(" ").map(Number), made = [];
  const stations = Object.keys(run.plain).map(Number).filter((station) => station >= lower && station <= upper).sort((a, b) => a - b);
  const turns = [...new Set([first, ...stations.flatMap((station) => plainOf(station).map(([turn]) => turn).filter((turn) => turn > first && turn <= last))])].sort((a, b) => a - b);
  turns.forEach((turn, at) => {
    if ((stations.filter((station) => valueAt(plainOf(station), turn) >= 0).join(" ") || "none") !== found) return;
    const to = at + 1 < turns.length ? turns[at + 1] - 1 : last;
    if (made.length && made[made.length - 1][1] === turn - 1) made[made.length - 1][1] = to; else made.push([turn, to]);
  });
  return made;
}

// The comment that goes with a turn: that of the line which its record stands on.
function commentWords(turn) {
  const at = lastAt(run.comments, turn);
  if (at < 0) return "";
  const [, last, before, beside] = run.comments[at];
  return turn <= last ? [before, beside].filter(Boolean).join(" ") : "";
}

const escaped = (text) => text.replace(/[&<>"]/g, (sign) => ({ "&": "&amp;", "<": "&lt;", ">": "&gt;", '"': "&quot;" })[sign]);
const badge = (thread) => `<b class="badge b${thread}">t${thread}</b>`;
// A row's words: thread, action, station, answer and, for a lookup's yes in versions 2 and 3, the depth found.
const wordsOf = ({ row }) => row.split(" ");
const answer = (given) => { const word = wordsOf(given)[3]; return `<em class="answer ${word}">${word}</em>`; };
const found = (given) => { const depth = wordsOf(given)[4]; return depth === undefined ? "" : `<span class="found">${depth}</span>`; };
// Why a split or join did nothing; the stations that a range query found.
const why = ({ reason }) => (reason ? `<small class="why" title="${reason}">${reason}</small>` : "");
// "t0 insert 3" with the thread as a badge; a raw record stands as it is.
const withBadge = (text) => (/^t[0-3] /.test(text) ? `${badge(text[1])}<span>${text.slice(3)}</span>` : `<span>${text}</span>`);
const rowHtml = (given) => `${withBadge(wordsOf(given).slice(0, 3).join(" "))}${why(given)}${answer(given)}${found(given)}`;
