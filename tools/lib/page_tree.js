// ---- The tree after a turn, with node numbers, marks, stages and who holds a node; nodes that are cut off but held, drawn apart ----

const LINE = 20, LEVEL = 104, GAP = 18, RADIUS = 26, EDGE = 14;
// The width of a station, the most in a line, and how much wider than high a container is.
const [CELL, COLUMNS, SPREAD] = run.deep ? [62, 4, 0.7] : [25, 8, 1.7];
const LEGIBLE = 0.75, LARGEST = 1.3; // scales: text is legible from the first on
const TINY = 0.04, PAN = 80;
const BADGE = 24; // a holder's badge and the space after it

// A node of the state as one to draw.
function made(nodes, number, depth) {
  const node = { kind: "normal", note: "not there", ...nodes[number], number, depth };
  if (nodes[number]) node.note = nodes[number].note;
  node.words = node.stations ? node.stations.split(" ") : [];
  return node;
}

// The tree from a node down. Of a build whose nodes are not a tree each is drawn once.
function treeFrom(nodes, number, depth = 0, drawn = new Set()) {
  const node = made(nodes, number, depth), again = drawn.has(number);
  drawn.add(number);
  if (node.kind === "route" && !again) {
    node.leftNode = treeFrom(nodes, node.left, depth + 1, drawn);
    node.rightNode = treeFrom(nodes, node.right, depth + 1, drawn);
  } else if (node.kind === "route") {
    Object.assign(node, { kind: "normal", note: `route ${number} again` });
  }
  return node;
}

function measure(base) {
  const columns = Math.max(1, Math.min(COLUMNS, Math.ceil(Math.sqrt(base.words.length * SPREAD))));
  base.columns = columns;
  base.top = base.note ? 42 : 28;
  base.width = Math.max(9 * base.kind.length + (base.number < 100 ? 38 : 46), base.note ? 7 * base.note.length + 14 : 0, columns * CELL + 14);
  base.height = base.top + (base.kind === "route" ? 0 : Math.max(1, Math.ceil(base.words.length / columns)) * LINE) + 6; // a route that is drawn apart has no container
}

// Gives each child its distance from its route, `shift`, as small as no two nodes on a level need more. The answer
// is the subtree's outline: for each level from the node down, how far it reaches to the left and to the right.
function outline(node) {
  if (node.kind !== "route") {
    measure(node);
    return Array(Math.ceil((node.height + LEVEL / 3) / LEVEL)).fill([-node.width / 2, node.width / 2]);
  }
  const left = outline(node.leftNode), right = outline(node.rightNode);
  let apart = 3 * RADIUS;
  for (let level = 0; level < Math.min(left.length, right.length); level++) {
    apart = Math.max(apart, left[level][1] - right[level][0] + GAP);
  }
  node.leftNode.shift = -apart / 2;
  node.rightNode.shift = apart / 2;
  const below = Array.from({ length: Math.max(left.length, right.length) }, (_, level) => {
    const [a, b] = left[level] || [Infinity, -Infinity], [c, d] = right[level] || [Infinity, -Infinity];
    return [Math.min(a - apart / 2, c + apart / 2), Math.max(b - apart / 2, d + apart / 2)];
  });
  return [[-RADIUS, RADIUS + (node.invalid ? 58 : node.mark === undefined ? 0 : 40)], ...below];
}

// Sets the places of a subtree's nodes; gives its lowest point.
function place(node, x) {
  node.x = x;
  node.y = EDGE + node.depth * LEVEL;
  if (node.kind !== "route") return node.y + node.height;
  return Math.max(place(node.leftNode, x + node.leftNode.shift), place(node.rightNode, x + node.rightNode.shift));
}

function edge(from, to, word) {
  const top = from.y + 2 * RADIUS, middle = (top + to.y) / 2, x = (from.x + to.x) / 2;
  return `<path class="edge" d="M${from.x} ${top}C${from.x} ${middle + 12} ${to.x} ${middle - 12} ${to.x} ${to.y}"/>` +
    `<g class="when"><rect x="${x - 17}" y="${middle - 9}" width="34" height="18" rx="9"/><text x="${x}" y="${middle + 4}">${word}</text></g>`;
}

function drawRoute(node) {
  const y = node.y + RADIUS;
  const circle = (name, radius) => `<circle class="${name}" cx="${node.x}" cy="${y}" r="${radius}"/>`;
  const mark = node.mark === undefined ? "" : `<text class="mark" x="${node.x + RADIUS + 4}" y="${y + 4}">\u2691 ${node.mark}</text>`;
  const invalid = node.invalid ? `<text class="mark" x="${node.x + RADIUS + 4}" y="${y + 18}">not valid</text>` : "";
  return circle("ring", RADIUS + 5) + circle("shape", RADIUS) +
    `<text class="word" x="${node.x}" y="${y - 10}">route</text><text class="value" x="${node.x}" y="${y + 6}">${node.key}</text>` +
    `<text class="number" x="${node.x}" y="${y + 19}">${node.number}</text>${mark}${invalid}`;
}

function drawBase(node) {
  const box = (name, out) => `<rect class="${name}" x="${node.x - node.width / 2 - out}" y="${node.y - out}" width="${node.width + 2 * out}" height="${node.height + 2 * out}" rx="${9 + out}"/>`;
  const across = Math.min(node.columns, node.words.length || 1), [low, high] = node.range || [0, 64];
  const stations = node.words.map((word, at) => {
    const [station, depth] = word.split("=");
    const x = node.x + ((at % node.columns) - (across - 1) / 2) * CELL;
    const y = node.y + node.top + 12 + Math.floor(at / node.columns) * LINE;
    const outside = Number(station) < low || Number(station) >= high;
    const deep = depth === undefined ? "" : `<tspan class="depth">=${depth}</tspan>`;
    return `<text class="station${outside ? " outside" : ""}" x="${x}" y="${y}">${station}${deep}</text>`;
  });
  const empty = node.kind === "route" ? "" : `<text class="station none" x="${node.x}" y="${node.y + node.top + 12}">-</text>`;
  const note = node.note ? `<text class="stage" x="${node.x}" y="${node.y + 33}">${node.note}</text>` : "";
  return `${box("ring", 5)}${box("shape", 0)}<text class="word" x="${node.x - (node.number < 100 ? 0 : 7)}" y="${node.y + 17}">${node.kind}</text>` +
    `<text class="number" x="${node.x + node.width / 2 - 12}" y="${node.y + 17}">${node.number}</text>${note}${stations.join("") || empty}`;
}

// All that the state has of a node, for whoever points at it.
function title(node) {
  const { kind, number, parent, range, key, left, right, mark, note, agreed } = node, link = (to, word) => (to === undefined ? `no ${word}` : `${word} ${to}`);
  const fields = key === undefined ? [link(parent, "parent"), `stations ${node.stations || "-"}`, ...(note ? [note] : []), ...(agreed ? [agreed] : [])]
    : [`key ${key}`, `left ${left}`, `right ${right}`, node.invalid ? "not valid" : "valid", link(mark, "join mark")];
  const where = !range ? "cut off" : range[0] < range[1] ? `range ${range[0]} to ${range[1] - 1}` : "an empty range";
  return `<title>${kind} ${number}: ${[...fields, where].join("; ")}</title>`;
}

// Draws a subtree into two lists, nodes in the order of the listing; numbers from `from` on are new.
function draw(node, from, edges, nodes) {
  const isRoute = node.kind === "route";
  const names = `node ${node.kind}${node.number >= from ? " new" : ""}${node.invalid ? " invalid" : ""}`;
  nodes.push(`<g class="${names}" data-depth="${node.depth}" data-number="${node.number}">${title(node)}${isRoute ? drawRoute(node) : drawBase(node)}</g>`);
  if (!isRoute || !node.leftNode) return;
  edges.push(edge(node, node.leftNode, `&lt; ${node.key}`), edge(node, node.rightNode, `\u2265 ${node.key}`));
  draw(node.leftNode, from, edges, nodes);
  draw(node.rightNode, from, edges, nodes);
}

// Those of a list of node numbers that are not reachable, side by side below the tree; a route says its children.
function drawApart(nodes, numbers, y, edges) {
  let x = EDGE;
  const drawn = numbers.map((number) => {
    const node = made(nodes, number, 0);
    if (node.kind === "route") {
      node.note = [`key ${node.key}: ${node.left}, ${node.right}`, ...(node.invalid ? ["not valid"] : []), ...(node.mark === undefined ? [] : [`\u2691 ${node.mark}`])].join(", ");
      node.words = [];
    }
    measure(node);
    node.x = x + node.width / 2;
    node.y = y + 22;
    x += node.width + GAP;
    return node;
  });
  if (!drawn.length) return { width: 0, height: 0, html: "", drawn };
  const shapes = drawn.map((node) => `<g class="held-node ${node.kind}" data-number="${node.number}">${title(node)}${drawBase(node)}</g>`).join("");
  edges.push(`<text class="apart-word" x="${EDGE}" y="${y + 8}">cut off, still held by a thread</text>`);
  return { width: x - GAP + EDGE, height: 30 + Math.max(...drawn.map((node) => node.height)), html: shapes, drawn };
}

// The badges of the threads that hold a node, on its upper edge: a route's in the middle, a base's at the left.
function drawHolders(drawn, holders) {
  return [...holders].flatMap(([number, threads]) => {
    const node = drawn.get(number);
    if (!node) return [];
    const left = node.leftNode ? node.x - (BADGE * threads.length - 2) / 2 : node.x - node.width / 2 + 2;
    return threads.map((thread, at) => `<g class="holder"><rect class="h${thread}" x="${left + BADGE * at}" y="${node.y - 10}" width="${BADGE - 2}" height="15" rx="4"/>` +
      `<text x="${left + BADGE * at + 11}" y="${node.y + 1}">t${thread}</text></g>`);
  }).join("");
}

function gathered(node, into = new Map()) {
  into.set(node.number, node);
  if (node.leftNode) { gathered(node.leftNode, into); gathered(node.rightNode, into); }
  return into;
}

// ---- The view: fit, zoom, pan, overview ----

// `wide` and `high` are the room that there is; what is drawn is remembered by `key` and `apart`, so that a step that changes nothing of it
// draws nothing.
const view = { scale: 1, x: 0, y: 0, width: 1, height: 1, wide: 1, high: 1, own: false, drawn: new Map(), key: "", apart: "", holders: "" };

function measureView() {
  view.wide = part("canvas").clientWidth;
  view.high = part("canvas").clientHeight;
}

function placeView() {
  const canvas = part("canvas"), { wide, high } = view;
  const room = (have, need, at) => (need <= have ? (have - need) / 2 : Math.min(0, Math.max(have - need, at)));
  view.x = room(wide, view.width * view.scale, view.x);
  view.y = view.height * view.scale <= high ? 4 : room(high, view.height * view.scale, view.y);
  // moved as a whole, which lays out nothing; only another scale lays out all its words again
  if (view.shown !== view.scale) part("scene").setAttribute("transform", `scale(${view.scale})`);
  view.shown = view.scale;
  part("tree-svg").style.transform = `translate(${view.x}px, ${view.y}px)`;
  const whole = view.width * view.scale <= wide + 1 && view.height * view.scale <= high + 1;
  part("overview").toggleAttribute("hidden", whole);
  canvas.style.touchAction = whole ? "auto" : "none";
  if (whole) return;
  const box = part("window");
  box.setAttribute("x", -view.x / view.scale);
  box.setAttribute("y", -view.y / view.scale);
  box.setAttribute("width", wide / view.scale);
  box.setAttribute("height", high / view.scale);
  placeOverview();
}

// The overview lies in the corner away from the node that matters.
function placeOverview() {
  const node = view.drawn.get(view.matters), { wide, high } = view;
  part("overview").classList.toggle("at-left", Boolean(node) && node.x * view.scale + view.x > wide / 2);
  part("overview").classList.toggle("at-top", Boolean(node) && node.y * view.scale + view.y > high / 2);
}

const fitting = () => Math.min((view.wide - 4) / view.width, (view.high - 8) / view.height);

// As large as fits, but legible; where that is more than fits, the node that matters is in sight.
function fitView(number = view.matters) {
  view.matters = number;
  view.scale = Math.max(LEGIBLE, Math.min(LARGEST, fitting()));
  const node = view.drawn.get(number);
  if (node) centre(node.x, node.y + 40);
  placeView();
}

function centre(x, y) {
  view.x = view.wide / 2 - x * view.scale;
  view.y = view.high / 2 - y * view.scale;
}

function zoom(factor, x = view.wide / 2, y = view.high / 2) {
  const scale = Math.max(TINY, Math.min(3, view.scale * factor));
  view.x = x - ((x - view.x) * scale) / view.scale;
  view.y = y - ((y - view.y) * scale) / view.scale;
  view.scale = scale;
  view.own = true;
  placeView();
}

// A node in sight, if it is drawn and not in sight; where it is, nothing moves.
function seek(number) {
  view.matters = number;
  const node = view.drawn.get(number);
  if (!node) return;
  const x = node.x * view.scale + view.x, y = node.y * view.scale + view.y;
  if (x < 40 || x > view.wide - 40 || y < 0 || y > view.high - 60) { centre(node.x, node.y + 40); placeView(); } else placeOverview();
}

function setUpView() {
  const canvas = part("canvas");
  new ResizeObserver(() => { measureView(); if (view.own) placeView(); else fitView(); }).observe(canvas);
  let from = null;
  canvas.addEventListener("wheel", (event) => {
    // where the page itself scrolls, the wheel is the page's
    if (!event.ctrlKey && matchMedia("(max-width: 1000px)").matches) return;
    event.preventDefault();
    const box = canvas.getBoundingClientRect();
    zoom(Math.exp(-event.deltaY / 400), event.clientX - box.left, event.clientY - box.top);
  }, { passive: false });
  canvas.addEventListener("pointerdown", (event) => {
    if (event.target.closest("#overview")) return;
    from = { x: event.clientX - view.x, y: event.clientY - view.y, id: event.pointerId };
    canvas.setPointerCapture(event.pointerId);
  });
  canvas.addEventListener("pointermove", (event) => {
    if (!from || from.id !== event.pointerId) return;
    view.x = event.clientX - from.x;
    view.y = event.clientY - from.y;
    view.own = true;
    placeView();
  });
  for (const end of ["pointerup", "pointercancel"]) canvas.addEventListener(end, () => { from = null; });
  part("overview").addEventListener("pointerdown", (event) => {
    const box = part("overview").getBoundingClientRect();
    centre(((event.clientX - box.left) / box.width) * view.width, ((event.clientY - box.top) / box.height) * view.height);
    view.own = true;
    placeView();
  });
  // only the Tab key gives it the focus: whoever drags it still steps with the arrows
  canvas.addEventListener("mousedown", (event) => event.preventDefault());
  canvas.addEventListener("keydown", (event) => {
    const [x, y] = { ArrowLeft: [PAN, 0], ArrowRight: [-PAN, 0], ArrowUp: [0, PAN], ArrowDown: [0, -PAN] }[event.key] || [0, 0];
    if (event.shiftKey || event.altKey || event.ctrlKey || event.metaKey || (!x && !y)) return;
    event.preventDefault();
    event.stopPropagation();
    view.x += x;
    view.y += y;
    view.own = true;
    placeView();
  });
  part("large").addEventListener("click", toggleLarge);
  part("fit").addEventListener("click", showAll);
  part("larger").addEventListener("click", () => zoom(1.3));
  part("smaller").addEventListener("click", () => zoom(1 / 1.3));
}

function showAll() {
  view.scale = Math.min(LARGEST, fitting());
  view.own = true;
  placeView();
}

// The tree alone in the window, or all the parts again, which are then measured anew.
function toggleLarge() {
  const isLarge = document.body.classList.toggle("large");
  part("large").setAttribute("aria-pressed", isLarge);
  view.own = false;
  measureAll();
  fitView();
  if (isLarge) return;
  lanes.drawn = false;
  showLanes(now);
  showRecord(now);
}

const VIEW_KEYS = { "+": () => zoom(1.3), "=": () => zoom(1.3), "-": () => zoom(1 / 1.3), 0: showAll, w: toggleLarge };

// ---- One turn ----

// Who holds which node: number -> threads.
function holdersAt(turn) {
  const holders = new Map();
  [0, 1, 2, 3].forEach((thread) => threadAt(thread, turn)[2].forEach((number) => {
    if (!holders.has(number)) holders.set(number, []);
    holders.get(number).push(thread);
  }));
  return holders;
}

// The tree, the nodes apart and the holders' badges, each drawn anew only where it is not as it was.
function showTree(turn) {
  const bounded = Math.min(turn, run.done), carried = turn > 0 && turn <= run.done;
  const nodes = nodesAt(bounded), before = carried ? nodesAt(turn - 1) : nodes;
  const holders = holdersAt(bounded), fresh = nodes.length > before.length ? before.length : Infinity;
  const apart = [...holders.keys()].filter((number) => nodes[number] && !nodes[number].range).sort((a, b) => a - b);
  const since = (number) => run.nodes[number][lastAt(run.nodes[number], bounded)][0]; // a node that is cut off changes too: its main's stage does
  const key = `${fresh} ${treeKey(bounded)}`, apartKey = `${apart.map((number) => [number, since(number)])} ${key}`, holdersKey = JSON.stringify([...holders]);
  if (key !== view.key) drawTree(nodes, bounded, fresh);
  if (apartKey !== view.apart) {
    const words = [], beside = drawApart(nodes, apart, view.low + 6, words);
    part("apart").innerHTML = words.join("") + beside.html;
    view.drawn = new Map(view.tree);
    beside.drawn.forEach((node) => view.drawn.set(node.number, node));
    view.width = Math.max(view.treeWidth, beside.width);
    view.height = view.low + (beside.height ? beside.height + 10 : 0);
    drawOverview();
  }
  if (holdersKey !== view.holders || apartKey !== view.apart) part("holders").innerHTML = drawHolders(view.drawn, holders);
  if (holdersKey !== view.holders || apartKey !== view.apart) part("tree-words").textContent = treeWords(nodes, holders);
  const isNew = apartKey !== view.apart;
  Object.assign(view, { key, apart: apartKey, holders: holdersKey });
  const touched = carried ? run.told[turn - 1][3].find((number) => view.drawn.has(number)) : undefined;
  const matters = fresh < Infinity ? [...view.drawn.keys()].find((number) => number >= fresh) : touched;
  if (!view.own) { if (isNew) fitView(matters); else seek(matters); } else if (isNew) { placeView(); if (fresh < Infinity) seek(matters); }
  const gone = carried ? before.map((node, number) => number).filter((number) => before[number].range && !nodes[number].range) : [];
  const words = gone.length ? `went at this turn: ${gone.map((number) => `<b class="${before[number].kind}">${before[number].kind} ${number}</b>`).join(", ")}` : "";
  if (part("gone").innerHTML !== words) part("gone").innerHTML = words;
}

// What the drawing shows and the listing does not, for a screen reader.
function treeWords(nodes, holders) {
  const all = nodes.map((node, number) => ({ ...node, name: `${node.kind} ${number}` })), there = all.filter((node) => node.range);
  const words = there.flatMap((node) => [
    ...(node.mark === undefined ? [] : [`${node.name} has the join mark of main ${node.mark}`]),
    ...(node.invalid ? [`${node.name} is not valid`] : []),
    ...(node.note ? [`${node.name}: ${node.note}`] : []),
  ]);
  for (const [number, threads] of holders) {
    if (all[number]) words.push(`${all[number].name}${all[number].range ? "" : ", which is cut off,"} is held by ${threads.map((thread) => `t${thread}`).join(" and ")}`);
  }
  return words.length ? `${words.join("; ")}.` : "";
}

// What a tree is drawn from: the turns at which the nodes that are reachable changed last, and the root.
function treeKey(turn) {
  let key = `${valueAt(run.roots, turn)}`;
  for (const changes of run.nodes) {
    if (changes[0][0] > turn) break;
    const at = lastAt(changes, turn);
    if (changes[at][1].range) key += ` ${changes[at][0]}`;
  }
  return key;
}

function drawTree(nodes, turn, fresh) {
  const tree = treeFrom(nodes, valueAt(run.roots, turn));
  const levels = outline(tree), edges = [], shapes = [];
  const reachLeft = Math.min(...levels.map(([left]) => left)), reachRight = Math.max(...levels.map(([, right]) => right));
  view.low = place(tree, EDGE - reachLeft) + EDGE;
  view.treeWidth = reachRight - reachLeft + 2 * EDGE;
  view.tree = gathered(tree);
  draw(tree, fresh, edges, shapes);
  part("tree-nodes").innerHTML = edges.join("") + shapes.join("");
  part("tree-svg").setAttribute("aria-label", `The tree: ${valueAt(run.listings, turn).trim().split("\n").join(", ")}`);
}

function drawOverview() {
  part("overview").setAttribute("viewBox", `0 0 ${view.width} ${view.height}`);
  part("overview").style.height = `${Math.max(40, Math.min(110, (170 * view.height) / view.width))}px`;
  part("overview-nodes").innerHTML = [...view.drawn.values()].map((node) => node.leftNode
    ? `<circle class="${node.kind}" cx="${node.x}" cy="${node.y + RADIUS}" r="${RADIUS}"/>`
    : `<rect class="${node.kind}" x="${node.x - node.width / 2}" y="${node.y}" width="${node.width}" height="${node.height}"/>`).join("");
}
