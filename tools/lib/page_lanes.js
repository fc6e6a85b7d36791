// ---- Lanes: a lane for each thread, time from left to right; each operation's span, its swaps, who helps or kills it ----

const LANE = 22, LANE_TOP = 15;
const lanes = { scale: 1, left: 0, wide: 0 };

// How wide a turn is: all of a short run is in sight, of a long one as much as can be told apart.
function laneScale(factor = 1) {
  lanes.wide = part("lanes").clientWidth;
  const room = lanes.wide - 44;
  lanes.scale = Math.max(room / (lastTurn + 1), Math.min(24, lanes.chosen ? lanes.scale * factor : Math.max(room / (lastTurn + 1), 3)));
}

const laneX = (turn) => (turn + 0.5) * lanes.scale;
const laneY = (thread) => LANE_TOP + thread * LANE;

// Turns in a row as one stretch: [first, last].
function stretches(turns) {
  const made = [];
  for (const turn of turns) {
    if (made.length && made[made.length - 1][1] === turn - 1) made[made.length - 1][1] = turn; else made.push([turn, turn]);
  }
  return made;
}

function drawLanes() {
  laneScale();
  const width = laneX(lastTurn) + lanes.scale, height = LANE_TOP + 4 * LANE + 4, shapes = [];
  const bar = (name, from, to, y, high) =>
    `<rect class="${name}" x="${from * lanes.scale}" y="${y}" width="${Math.max(1, (to - from + 1) * lanes.scale - 0.5)}" height="${high}" rx="2"/>`;
  for (const operation of run.operations) {
    const [thread, words, start, , last, swaps] = operation, y = laneY(thread), end = last || run.done;
    const wrote = swaps.length ? `<path class="swap" d="${swaps.map((turn) => `M${laneX(turn)} ${y - 2}v${LANE - 4}`).join("")}"/>` : "";
    const moments = words.startsWith("lookup ") ? momentsOf(operation).map(([from, to, depth]) => bar(depth < 0 ? "outside" : "inside", from, to, y + LANE - 8, 3)).join("") : "";
    const name = (end - start + 1) * lanes.scale > 7 * words.length + 6 ? `<text x="${start * lanes.scale + 4}" y="${y + 11}">${words}</text>` : "";
    shapes.push(`<g class="operation o${thread}${last ? "" : " open"}"><title>t${thread} ${words}: turns ${start} to ${last || "the end"}</title>` +
      `${bar("span", start, end, y, LANE - 5)}${wrote}${moments}${name}</g>`);
  }
  for (const thread of [0, 1, 2, 3]) {
    for (const owner of [-1, 0, 1, 2, 3]) {
      const turns = run.helps.filter(([, of, kill, helped]) => of === thread && helped === owner && !kill).map(([turn]) => turn);
      for (const [from, to] of stretches(turns)) {
        shapes.push(`<g class="help"><title>t${thread} helps${owner < 0 ? "" : ` t${owner}`}: turns ${from} to ${to}</title>` +
          `${bar(`o${owner} helping`, from, to, laneY(thread) + LANE - 10, 5)}</g>`);
      }
    }
  }
  for (const [turn, thread, kill, killed] of run.helps) {
    if (!kill) continue;
    const x = laneX(turn), to = laneY(killed < 0 ? thread : killed) + 9;
    shapes.push(`<g class="kill"><title>t${thread} kills the join of ${killed < 0 ? "a thread" : `t${killed}`}: turn ${turn}</title>` +
      `<path d="M${x} ${laneY(thread) + 9}V${to}"/><circle cx="${x}" cy="${to}" r="4"/></g>`);
  }
  const every = [1, 5, 10, 50, 100, 500].find((step) => step * lanes.scale >= 44) || 1000;
  const mark = (turn) => {
    const [name, x] = !turn ? ["when start", 1] : laneX(turn) > width - 14 ? ["when end", width] : ["when", laneX(turn)];
    return `<text class="${name}" x="${x}" y="10">${turn}</text>`;
  };
  const marks = Array.from({ length: Math.floor(lastTurn / every) + 1 }, (_, at) => mark(at * every));
  part("lane-drawing").innerHTML = `<svg role="img" aria-label="Operations of the four threads over time" width="${width}" height="${height}">` +
    `${marks.join("")}${shapes.join("")}</svg><div id="cursor"></div>`;
  lanes.drawn = true;
}

function showLanes(turn) {
  if (!lanes.drawn) drawLanes();
  part("cursor").style.transform = `translateX(${laneX(turn) - 1}px)`;
  const x = laneX(turn) + 36;
  if (x < lanes.left + 60 || x > lanes.left + lanes.wide - 40) part("lanes").scrollLeft = lanes.left = Math.max(0, x - lanes.wide / 2);
}

function setUpLanes() {
  part("lane-names").innerHTML = [0, 1, 2, 3].map(badge).join("");
  part("lanes").addEventListener("scroll", () => { lanes.left = part("lanes").scrollLeft; }, { passive: true });
  part("lane-drawing").addEventListener("click", (event) => {
    const box = part("lane-drawing").getBoundingClientRect();
    show(Math.round((event.clientX - box.left) / lanes.scale - 0.5));
  });
  const zoomLanes = (factor) => { lanes.chosen = true; laneScale(factor); lanes.drawn = false; showLanes(now); };
  part("lanes-wider").addEventListener("click", () => zoomLanes(1.6));
  part("lanes-narrower").addEventListener("click", () => zoomLanes(1 / 1.6));
}
