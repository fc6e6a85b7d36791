// ---- One turn, and how one gets to it ----

const changeTurns = [...new Set([...run.listings, ...run.rows].map(([turn]) => turn).concat(lastTurn))].sort((a, b) => a - b);
let now = -1;

let listingKey = "", setKey = "";
function showListing(turn) {
  const text = valueAt(run.listings, turn);
  const textBefore = turn > 0 && turn <= run.done ? valueAt(run.listings, turn - 1) : text;
  const key = `${lastAt(run.listings, turn)} ${text === textBefore}`;
  if (key !== listingKey) {
    const linesBefore = new Set(textBefore.split("\n"));
    part("listing").innerHTML = text.trimEnd().split("\n")
      .map((line) => `<span class="${linesBefore.has(line) ? "" : "new"}">${line}\n</span>`).join("");
    listingKey = key;
  }
  const line = text.trimEnd().split("\n").pop(), plain = plainAt(Math.min(turn, run.done));
  if (`${line} ${plain}` !== setKey) showSet(line === "set -" ? [] : line.split(" ").slice(1), plain);
  setKey = `${line} ${plain}`;
  const [stored, used] = valueAt(run.counts, turn), [shown, count] = valueAt(run.shared, Math.min(turn, run.done));
  part("stored").textContent = stored;
  part("used").textContent = used;
  part("meter").style.width = `${(100 * used) / 256}%`;
  part("stores").textContent = shown ? run.stores.slice(0, shown).map((changes, number) => `${number}: ${valueAt(changes, Math.min(turn, run.done)) ?? "unset"}`).join("; ") : "none";
  part("count").textContent = count;
}

// The tree's set and the plain table beside it: words that may have depths.
function showSet(set, plain) {
  const depthOf = new Map(set.map((word) => word.split("="))), plainly = new Set(plain.map((word) => word.split("=")[0]));
  [...part("grid").children].forEach((cell, station) => {
    const stored = depthOf.has(String(station));
    cell.classList.toggle("in", stored);
    cell.classList.toggle("plain", plainly.has(String(station)));
    if (run.deep) cell.title = stored ? `station ${station}: ${depthOf.get(String(station))} mm` : "";
  });
  const same = plain.join(" ") === set.join(" ");
  part("set").textContent = set.join(" ") || "-";
  part("plain").textContent = plain.join(" ") || "-";
  part("plain").classList.toggle("differs", !same);
  part("size").textContent = `${set.length} of 64 stations, ${same ? "as" : "NOT as"} in the plain ${run.deep ? "table" : "set"}`;
}

const turnWords = (from, to) => (from === to ? `turn ${from}` : `turns ${from} to ${to}`);

// The moments of a lookup's span, in words.
function momentWords(operation, turn) {
  const station = operation[1].split(" ")[1];
  return momentsOf(operation).filter(([from]) => from <= turn)
    .map(([from, to, depth]) => `${depth < 0 ? `${station} out` : `${plainWord(station, depth)} in`} at ${turnWords(from, Math.min(to, turn))}`).join(", ");
}

// What is said of the moments of a lookup, or of a query that has its row at this turn.
function spanWords(operation, row, turn) {
  if (operation[1].startsWith("lookup ")) return momentWords(operation, turn);
  if (!operation[1].startsWith("range ") || !row) return "";
  const turns = agreements(operation, row.reason.replace("found ", "")).map(([from, to]) => turnWords(from, to));
  return turns.length ? `as in the plain table at ${turns.join(", ")}` : "NOT as in the plain table at any turn";
}

// A thread's open operation with its place and notes, or its last one with its answer.
function showThreads(turn) {
  part("threads").innerHTML = threadTurns.map((turns, thread) => {
    const at = lastAt(turns, turn), last = at < 0 ? 0 : turns[at][0];
    const [, operation, steps] = last ? run.deeds[last - 1] : [];
    const row = rowAt.get(last), idle = !last || row, [place, notes] = threadAt(thread, turn);
    const note = row ? `${operation} ${answer(row)}` : last ? `${steps} own step${steps === 1 ? "" : "s"}` : "";
    const where = idle ? "" : `<p class="where"><b>${place}</b> ${placeWords(place)}</p>`;
    const known = notes.length ? `<ul class="notes">${notes.map((word) => `<li>${escaped(word)}</li>`).join("")}</ul>` : "";
    const open = valueAt(threadOperations[thread], turn);
    const said = open && open[3] && open[3] <= turn && (!row || last === turn) ? spanWords(open, row, turn) : "";
    const moments = said ? `<p class="moments">${said}</p>` : "";
    return `<li class="thread${idle ? " idle" : ""}${last === turn && turn ? " now" : ""}" data-thread="${thread}">` +
      `<p>${badge(thread)}<span class="operation">${idle ? "idle" : operation}</span></p><p class="note">${note}</p>${where}${known}${moments}</li>`;
  }).join("");
}

function showCaption(turn) {
  const refused = turn > run.done;
  part("refusal").hidden = !refused && !refusedFile;
  part("comment").textContent = part("comment").title = turn ? commentWords(turn) : "";
  if (turn === 0) {
    part("caption").innerHTML = refusedFile ? "No record was looked at" : '<b>A fresh bench</b><span class="what">root 0, all threads idle</span>';
    return;
  }
  const text = run.records[turn - 1];
  const [, operation, steps] = refused ? [] : run.deeds[turn - 1], [place, told, goes] = refused ? [] : run.told[turn - 1];
  const at = place ? `<span class="at"><b>${place}</b> ${placeWords(place)}</span>` : "";
  const to = refused || rowAt.has(turn) ? "" : `<span class="goes">goes to <b>${goes}</b> ${placeWords(goes)}</span>`;
  const what = refused ? "refused" : steps ? `${operation}, own step ${steps}` : `opens ${operation}`;
  const row = rowAt.has(turn) ? `<span class="row">${rowHtml(rowAt.get(turn))}</span>` : "";
  part("caption").innerHTML = `${withBadge(text).replace("<span>", '<b class="text">').replace("</span>", "</b>")}<span class="what">${what}</span>${at}` +
    `${place ? `<span class="told">${escaped(told)}</span>` : ""}${to}${row}`;
}

let noting = 0;
function noteTurn() {
  clearTimeout(noting);
  noting = setTimeout(() => { try { history.replaceState(null, "", `#at=${now}`); } catch (error) { /* the page works without */ } }, 200);
}

function show(wanted) {
  const turn = Math.max(0, Math.min(lastTurn, wanted));
  if (turn === now || !Number.isFinite(turn)) return;
  const first = now < 0;
  now = turn;
  showCaption(turn);
  showThreads(turn);
  if (!refusedFile) { showListing(turn); showTree(turn); showRows(turn); showLanes(turn); }
  showRecord(turn);
  part("turn").innerHTML = `turn <b>${turn}</b> of ${lastTurn}`;
  part("slider").value = turn;
  part("first").disabled = part("back").disabled = turn === 0;
  part("end").disabled = part("on").disabled = turn === lastTurn;
  document.body.dataset.turn = turn;
  if (turn === lastTurn) stop();
  if (!first) noteTurn();
}

// ---- Playing ----

let playing = 0;
function stop() {
  clearInterval(playing);
  playing = 0;
  part("play").classList.remove("playing");
  part("play").setAttribute("aria-label", "Play");
}
function togglePlay() {
  if (playing) { stop(); return; }
  if (now === lastTurn) show(0);
  playing = setInterval(() => show(now + 1), 1000 / Number(part("speed").value));
  part("play").classList.add("playing");
  part("play").setAttribute("aria-label", "Pause");
}

// ---- Searching: "9" or "station 9", "node 6", "place 35", "t1", or words of what is told ----

function matches(text) {
  const words = text.trim().toLowerCase();
  const kind = /^(station|node|place)?\s*(\d+)$/.exec(words), number = kind && Number(kind[2]);
  const turns = [];
  if (!words) return turns;
  for (let turn = 1; turn <= run.done; turn++) {
    const [thread, operation] = run.deeds[turn - 1], [place, told, goes, named] = run.told[turn - 1];
    const hit = kind
      ? kind[1] === "place" ? place === number || goes === number
        : kind[1] === "node" ? named.includes(number) || threadAt(thread, turn)[2].includes(number)
          : operation.split(" ")[1] === String(number)
      : /^t[0-3]$/.test(words) ? thread === Number(words[1]) : `${operation} ${told} ${placeWords(place)}`.includes(words);
    if (hit) turns.push(turn);
  }
  return turns;
}

function search(step) {
  const turns = matches(part("find").value), count = turns.length;
  const to = step > 0 ? turns.find((turn) => turn > now) ?? turns[0] : turns.filter((turn) => turn < now).pop() ?? turns[count - 1];
  if (count && step) show(to);
  const at = turns.indexOf(now);
  part("matches").textContent = part("find").value.trim() ? (count ? `${at < 0 ? "" : `${at + 1} of `}${count} turn${count === 1 ? "" : "s"}` : "none") : "";
}

// ---- Setting up ----

const nextChange = () => changeTurns.find((turn) => turn > now) ?? lastTurn;
const lastChange = () => changeTurns.filter((turn) => turn < now).pop() ?? 0;
const KEYS = {
  ArrowRight: (shift) => (shift ? nextChange() : now + 1),
  ArrowDown: (shift) => (shift ? nextChange() : now + 1),
  ArrowLeft: (shift) => (shift ? lastChange() : now - 1),
  ArrowUp: (shift) => (shift ? lastChange() : now - 1),
  PageDown: () => now + 20,
  PageUp: () => now - 20,
  Home: () => 0,
  End: () => lastTurn,
};

function turnInAddress() {
  const given = /^#at=(\d+)$/.exec(location.hash);
  return given ? Number(given[1]) : 0;
}

// Sizes that a step need not ask for again.
function measureAll() {
  measureRecords();
  measureView();
}

function setUp() {
  document.title = `${run.name} \u2013 Nuxalder`;
  part("name").textContent = run.name;
  part("done").textContent = `${run.done} of ${run.records.length} done`;
  setUpLists();
  part("grid").innerHTML = Array.from({ length: 64 }, (_, station) => `<i>${station}</i>`).join("");
  if (run.deep) part("hint").textContent += " 3=640: station 3 at a depth of 640 mm.";
  part("range-key").hidden = !run.listings.some(([, text]) => / range /.test(text));
  part("stores-part").hidden = !run.deep;
  part("count-part").hidden = run.version !== 3;
  if (run.deep) part("plain-word").textContent = "plain table";
  if (run.refusal) {
    const left = run.records.length - lastTurn;
    part("refusal").textContent = refusedFile ? `The file is ${run.why}.`
      : `Record ${lastTurn}${run.where ? `, ${run.where},` : ""} is ${run.why}. The run ends before it${left ? `; ${left} more not carried out` : ""}.`;
  }
  part("slider").max = part("jump").max = lastTurn;
  const marks = (entries) => entries.map(([turn]) => `M${turn} 0V8`).join("");
  part("ticks").setAttribute("viewBox", `0 0 ${lastTurn || 1} 8`);
  part("ticks").innerHTML = `<path class="change" d="${marks(run.listings.slice(1))}"/><path class="row" d="${marks(run.rows)}"/>`;

  part("slider").addEventListener("input", () => show(Number(part("slider").value)));
  part("first").addEventListener("click", () => show(0));
  part("back").addEventListener("click", () => show(now - 1));
  part("on").addEventListener("click", () => show(now + 1));
  part("end").addEventListener("click", () => show(lastTurn));
  part("play").addEventListener("click", togglePlay);
  part("speed").addEventListener("change", () => { if (playing) { stop(); togglePlay(); } });
  part("jump").addEventListener("keydown", (event) => { if (event.key === "Enter") { if (part("jump").value) show(Number(part("jump").value)); part("jump").value = ""; part("jump").blur(); } });
  part("find").addEventListener("input", () => search(0));
  part("find").addEventListener("keydown", (event) => { if (event.key === "Enter") search(event.shiftKey ? -1 : 1); });
  part("find-on").addEventListener("click", () => search(1));
  part("find-back").addEventListener("click", () => search(-1));
  document.addEventListener("keydown", (event) => {
    const typing = event.target.closest && event.target.closest("input[type=search], input[type=number], select");
    if (typing && event.key === "Escape") typing.blur();
    if (typing || event.altKey || event.ctrlKey || event.metaKey) return;
    if (event.key === " " && !event.target.closest?.("button")) { event.preventDefault(); togglePlay(); return; }
    if (event.key === "/") { event.preventDefault(); part("find").focus(); return; }
    if (VIEW_KEYS[event.key] && !refusedFile) { event.preventDefault(); VIEW_KEYS[event.key](); return; }
    if (!KEYS[event.key]) return;
    event.preventDefault();
    stop();
    show(KEYS[event.key](event.shiftKey));
  });
  window.addEventListener("hashchange", () => show(turnInAddress()));
  window.addEventListener("resize", () => {
    measureAll();
    if (!refusedFile) { view.key = view.apart = ""; showTree(now); lanes.drawn = false; showLanes(now); }
  });
  setUpLanes();
  if (!refusedFile) drawLanes();
  measureAll();
  setUpView();
  show(turnInAddress());
}

setUp();
