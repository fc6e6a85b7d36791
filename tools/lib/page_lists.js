// ---- The records and the rows: long lists in chunks, of which only those in sight are laid out and drawn ----

const CHUNK = 64, HIGH = 26; // items of a chunk, and the height of one
const lists = { records: [], tops: [], high: 0, recordNow: null, rows: [], rowChunks: [], rowsShown: 0, rowNow: null };

// Items as chunks; one whose items are all of one height need not be laid out to know how high it is.
function chunked(items, isEven) {
  const made = [];
  for (let from = 0; from < items.length; from += CHUNK) {
    const part = items.slice(from, from + CHUNK), even = isEven(from, from + part.length);
    made.push(`<ol class="chunk${even ? " even" : ""}" start="${from + 1}"${even ? ` style="contain-intrinsic-height:${HIGH * part.length}px"` : ""}>${part.join("")}</ol>`);
  }
  return made.join("");
}

function recordItem(text, turn, comments, changes) {
  const kind = ["record", /step$/.test(text) ? "step" : "start"];
  if (changes.has(turn)) kind.push("changes");
  if (turn > run.done) kind.push(turn === lastTurn ? "refused" : "undone");
  const mark = rowAt.has(turn) ? answer(rowAt.get(turn)) : "", said = comments.get(turn);
  const comment = said ? `<li class="comment" data-turn="${turn}">${escaped(said)}</li>` : "";
  return `${comment}<li class="${kind.join(" ")}" data-turn="${turn}"><i>${turn}</i>${withBadge(text)}${mark}</li>`;
}

function setUpLists() {
  const changes = new Set(run.listings.map(([turn]) => turn)), comments = new Map(run.comments.map(([turn]) => [turn, commentWords(turn)]));
  const plain = (from, to) => !run.comments.some(([turn]) => turn > from && turn <= to && comments.get(turn));
  part("records").innerHTML = chunked(run.records.map((text, at) => recordItem(text, at + 1, comments, changes)), plain);
  lists.records = [...part("records").querySelectorAll(".record")];
  part("rows").innerHTML = chunked(run.rows.map(([turn, row, reason]) => `<li hidden data-turn="${turn}">${rowHtml({ row, reason })}<i>${turn}</i></li>`), () => true);
  lists.rows = [...part("rows").querySelectorAll("li")];
  lists.rowChunks = [...part("rows").children];
  lists.rowChunks.forEach((chunk) => { chunk.hidden = true; });
  for (const list of [part("records"), part("rows")]) {
    list.addEventListener("click", (event) => {
      const item = event.target.closest("li");
      if (item && !item.classList.contains("undone")) show(Number(item.dataset.turn));
    });
  }
}

// Where each record stands in its list.
function measureRecords() {
  lists.tops = [...part("records").children].flatMap((chunk, number) => {
    const items = lists.records.slice(number * CHUNK, (number + 1) * CHUNK), top = chunk.offsetTop;
    return items.map((item, at) => (chunk.classList.contains("even") ? top + HIGH * at : item.offsetTop));
  });
  lists.high = part("records").clientHeight;
}

function showRecord(turn) {
  const list = part("records");
  if (lists.recordNow) { lists.recordNow.classList.remove("now"); lists.recordNow.removeAttribute("aria-current"); }
  lists.recordNow = turn ? lists.records[turn - 1] : null;
  if (!turn) { list.scrollTop = 0; return; }
  lists.recordNow.classList.add("now");
  lists.recordNow.setAttribute("aria-current", "true");
  list.scrollTop = lists.tops[turn - 1] - lists.high / 2 + HIGH / 2;
}

function showRows(turn) {
  const count = lastAt(run.rows, turn) + 1, before = lists.rowsShown;
  for (; lists.rowsShown < count; lists.rowsShown++) lists.rows[lists.rowsShown].hidden = false;
  for (; lists.rowsShown > count; lists.rowsShown--) lists.rows[lists.rowsShown - 1].hidden = true;
  if (before !== count) {
    for (let number = Math.floor(Math.min(before, count) / CHUNK); number < lists.rowChunks.length && number * CHUNK <= Math.max(before, count); number++) {
      const shown = Math.max(0, Math.min(CHUNK, count - number * CHUNK));
      lists.rowChunks[number].hidden = !shown;
      lists.rowChunks[number].style.containIntrinsicHeight = `${HIGH * shown}px`;
    }
    part("finished").textContent = count ? `${count} so far` : "none yet";
    part("rows").scrollTop = 1e7;
  }
  if (lists.rowNow) lists.rowNow.classList.remove("now");
  lists.rowNow = rowAt.has(turn) ? lists.rows[count - 1] : null;
  if (lists.rowNow) lists.rowNow.classList.add("now");
}
