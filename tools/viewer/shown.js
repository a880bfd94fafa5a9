// ---- What is shown -------------------------------------------------------------------------------------------------

const $ = id => document.getElementById(id);
const chart = document.querySelector("#chart canvas"), over = document.querySelector("#over canvas");
// Where one client evaluates for all others, as in the history of an exploration, the lanes are those of the clients at first.
const firstBy = data.worker < 0 ? "ticket" : "client";
// The window, the event, what is chosen, and the filters.
const S = {
  from: 0.5, to: E + 0.5, scroll: 0, at: 0, life: -1, variable: -1, hover: null,
  by: firstBy, tab: "event", low: "store", isStore: false, text: "", name: "", state: "",
};
const L = {width: 0, height: 0, gutter: 0, lane: 24, axis: 26, lanes: [], place: null, perEvent: 1};
const X = e => L.gutter + (e - S.from) * L.perEvent;
const eventAtX = x => S.from + (x - L.gutter) / L.perEvent;
const clamp = (x, low, high) => Math.max(low, Math.min(high, x));

// Lanes: each row holds lives that don't overlap. By client or block a group has as many rows as it has tickets waiting at once.
const rowsBy = {};
function rows() {
  if (rowsBy[S.by]) return rowsBy[S.by];
  const found = {list: [], of: new Int32Array(lives.length), label: []};
  if (S.by == "ticket") lives.forEach((life, i) => { found.list.push([i]); found.of[i] = i; });
  else {
    const key = life => S.by == "client" ? life.client : life.block, groups = new Map();
    const begins = lives.flatMap((life, i) => life.start ? [] : [i]), events = Array.from({length: E}, (_, i) => i + 1);
    for (const [index, kind] of [...begins.map(i => [i, "s"]), ...events.map(e => [lifeOf[e], kindOf(e)])]) {
      if (kind == "i" || kind == "d" || kind == "l") continue;
      const life = lives[index];
      if (!groups.has(key(life))) groups.set(key(life), {rows: [], free: []});
      const group = groups.get(key(life));
      if (kind == "s") {
        const row = group.free.length ? group.free.shift() : group.rows.push([]) - 1;
        group.rows[row].push(index); found.of[index] = row;
      } else group.free.splice(lastUpTo(group.free, found.of[index]) + 1, 0, found.of[index]);
    }
    for (const name of [...groups.keys()].sort((a, b) => a - b))
      for (const row of groups.get(name).rows) {
        for (const index of row) found.of[index] = found.list.length;
        found.list.push(row);
        found.label.push(S.by == "client" ? `client ${name}` : oneLine(data.blocks[name]));
      }
  }
  found.place = new Int32Array(found.list.length).fill(-1);
  return rowsBy[S.by] = found;
}

// Which lives the filters let through.
let shown = new Uint8Array(lives.length).fill(1), version = 0;
const isFiltered = () => S.text || S.name || S.state;
const passes = e => lifeOf[e] < 0 ? !isFiltered() : shown[lifeOf[e]];
function filter() {
  version++;
  const variable = S.name ? store.findIndex((it, i) => it.name == S.name || "#" + i == S.name) : -1;
  const touched = new Uint8Array(lives.length), isFound = it => oneLine(it).toLowerCase().includes(S.text.toLowerCase());
  const found = data.blocks.map(isFound), named = data.labels.map(isFound);
  if (variable >= 0) for (const [e] of touching(variable)) touched[lifeOf[e]] = 1;
  shown = new Uint8Array(lives.length);
  lives.forEach((life, i) => {
    const at = stretchAt(life, S.at), state = S.state;
    const fits = !state || state == "was" && life.state.includes(STALE) || state == "waits" && !life.end || state == life.how
      || at >= 0 && (state == STATES[life.state[at]] || state == "blocks" && life.state[at] == CURRENT && data.verdicts[life.verdict[at]] === 0);
    shown[i] = fits && (!S.text || found[life.block] || life.named.some(it => named[it[1]]) || String(life.ticket) == S.text.trim()) && (!S.name || touched[i]);
  });
  redraw();
}

// The rows with an event in the window, ascending. More than MANY are drawn so low that all fit, without labels.
const MANY = 400;
let lanesKey = "";
function lanes() {
  const first = Math.max(1, Math.ceil(S.from)), last = Math.min(E, Math.floor(S.to)), key = [first, last, S.by, version].join();
  if (key == lanesKey) return;
  const all = rows(), top = L.lanes[Math.floor(S.scroll / L.lane)], keep = S.scroll > 0 && top !== undefined && lanesKey.split(",")[2] == S.by;
  const found = [];
  for (const row of L.lanes) if (row < L.place?.length) L.place[row] = -1;
  const add = index => { const row = all.of[index]; if (shown[index] && all.place[row] < 0) { all.place[row] = 0; found.push(row); } };
  for (let e = first; e <= last; e++) {
    add(lifeOf[e]);
    const made = madeStale[e];
    if (made) for (const index of made) add(index);
  }
  found.sort((a, b) => a - b).forEach((row, at) => { all.place[row] = at; });
  L.lanes = found; L.place = all.place; lanesKey = key;
  const room = L.height - L.axis - 6;
  L.lane = [34, 28, 24, 18, 13].find(it => it * found.length <= room) ?? (found.length > MANY ? room / found.length : 13);
  if (keep) { let at = lastUpTo(found, top); S.scroll = Math.max(0, at) * L.lane; }
  S.scroll = clamp(S.scroll, 0, Math.max(0, found.length * L.lane - room));
}

// The middle of a life's lane, or null if it isn't shown.
function yOf(index) {
  const place = L.place[rows().of[index]];
  return place < 0 || !shown[index] ? null : L.axis + (place + 0.5) * L.lane - S.scroll;
}

const mostScroll = () => Math.max(0, L.lanes.length * L.lane + 6 - (L.height - L.axis));
