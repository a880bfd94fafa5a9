// ---- Drawing -------------------------------------------------------------------------------------------------------

const COLORS = ("paper band ink muted line grid commits blocks throws on new stale ground hatch finished cancelled declared arrow cursor").split(" ");
let color = {}, hatch = null, crossed = null;
function theme(name) {
  document.documentElement.dataset.theme = name;
  const style = getComputedStyle(document.documentElement);
  for (const it of COLORS)
    color[it] = style.getPropertyValue("--" + it).trim();
  hatch = tile(color.ground, color.hatch, c => { for (const x of [-4, 4, 12]) { c.moveTo(x, 9); c.lineTo(x + 10, -1); } });
  crossed = tile(color.throws, color.on, c => { c.moveTo(0, 0); c.lineTo(8, 8); c.moveTo(0, 8); c.lineTo(8, 0); }, 0.35);
  legend(); redraw();
}

function tile(ground, ink, path, alpha = 1) {
  const it = document.createElement("canvas"), c = it.getContext("2d");
  it.width = it.height = 8;
  c.fillStyle = ground; c.fillRect(0, 0, 8, 8);
  c.globalAlpha = alpha; c.strokeStyle = ink; c.lineWidth = 1.6; c.beginPath(); path(c); c.stroke();
  return c.createPattern(it, "repeat");
}

const FONT = "system-ui,-apple-system,'Segoe UI',Roboto,'DejaVu Sans',sans-serif";
const MONO = "ui-monospace,SFMono-Regular,Menlo,Consolas,'DejaVu Sans Mono',monospace";

// A bar: `what` is new, commits, blocks, throws or stale. Each has a pattern of its own.
function bar(c, what, left, right, y, height) {
  const width = right - left, top = y - height / 2;
  if (width < 3) {
    c.fillStyle = {new: color.new, stale: color.hatch, throws: color.throws}[what] ?? color.commits;
    c.globalAlpha *= what == "new" || what == "blocks" ? 0.5 : 1;
    c.fillRect(left, top, Math.max(width, 1), height);
    c.globalAlpha = c.base ?? 1;
    return;
  }
  c.beginPath();
  c.roundRect(left + 0.5, top + 0.5, width - 1, height - 1, Math.min(3, width / 2));
  c.fillStyle = {new: color.paper, stale: hatch, throws: crossed}[what] ?? color[what];
  c.fill();
  if (what == "commits" || what == "throws") return;
  c.lineWidth = 1; c.strokeStyle = what == "new" ? color.new : what == "stale" ? color.stale : color.commits;
  c.setLineDash(what == "new" ? [3, 2.5] : []); c.stroke(); c.setLineDash([]);
}

// The sign of an event: d, s, i, f, t (finished by a throw) or c.
function sign(c, kind, x, y, r) {
  if (kind == "d") {
    c.beginPath(); c.moveTo(x, y - r); c.lineTo(x + r, y); c.lineTo(x, y + r); c.lineTo(x - r, y); c.closePath();
    c.fillStyle = color.declared; c.fill(); return;
  }
  if (kind == "l") {
    c.beginPath(); c.rect(x - r * 0.5, y - r * 0.5, r, r); c.lineWidth = Math.max(1, r / 4.5);
    c.fillStyle = color.paper; c.fill(); c.strokeStyle = color.ink; c.stroke(); return;
  }
  c.beginPath(); c.lineWidth = Math.max(1, r / 4.5);
  if (r < 3.2) {
    c.fillStyle = c.strokeStyle = kind == "f" ? color.finished : kind == "t" ? color.throws : kind == "c" ? color.cancelled : color.ink;
    if (kind == "s") { c.arc(x, y, Math.max(1, r - 0.5), 0, 7); c.stroke(); } else if (kind != "i") c.fillRect(x - r / 2, y - 2.2 * r, r, 4.4 * r);
    return;
  }
  if (kind == "s") { c.arc(x, y, r * 0.62, 0, 7); c.fillStyle = color.paper; c.fill(); c.strokeStyle = color.ink; c.stroke(); return; }
  if (kind == "i") { c.arc(x, y, r * 0.55, 0, 7); c.fillStyle = color.ink; c.fill(); c.strokeStyle = color.paper; c.stroke(); return; }
  c.arc(x, y, r, 0, 7); c.fillStyle = kind == "f" ? color.finished : kind == "t" ? color.throws : color.cancelled; c.fill();
  c.strokeStyle = color.on; c.lineWidth = Math.max(1.2, r / 4); c.beginPath();
  const at = (dx, dy) => [x + dx * r, y + dy * r];
  if (kind == "f") { c.moveTo(...at(-0.45, 0.05)); c.lineTo(...at(-0.12, 0.4)); c.lineTo(...at(0.48, -0.35)); }
  if (kind == "t") { c.moveTo(...at(0, -0.55)); c.lineTo(...at(0, 0.1)); c.moveTo(...at(0, 0.38)); c.lineTo(...at(0, 0.52)); }
  if (kind == "c") { c.moveTo(...at(-0.38, -0.38)); c.lineTo(...at(0.38, 0.38)); c.moveTo(...at(0.38, -0.38)); c.lineTo(...at(-0.38, 0.38)); }
  c.stroke();
}

const endKind = life => life.how == "cancelled" ? "c" : life.how == "throws" ? "t" : "f";

function look(life, i) {
  if (life.state[i] != CURRENT) return STATES[life.state[i]];
  const it = data.verdicts[life.verdict[i]];
  return it === 0 ? "blocks" : it.length == 1 ? "throws" : "commits";
}

function fit(canvas) {
  const scale = devicePixelRatio || 1, width = Math.round(canvas.clientWidth * scale), height = Math.round(canvas.clientHeight * scale);
  if (canvas.width != width) canvas.width = width;
  if (canvas.height != height) canvas.height = height;
  const c = canvas.getContext("2d");
  c.setTransform(scale, 0, 0, scale, 0, 0); c.globalAlpha = c.base = 1;
  return c;
}

let timeOfDraw = 0;
function draw() {
  const begin = performance.now(), c = fit(chart);
  L.width = chart.clientWidth; L.height = chart.clientHeight;
  L.gutter = L.width < 600 ? 96 : clamp(Math.round(L.width * 0.24), 120, 260);
  L.perEvent = (L.width - L.gutter - 14) / (S.to - S.from);
  lanes();
  c.fillStyle = color.paper; c.fillRect(0, 0, L.width, L.height);
  grid(c);
  const first = Math.floor(S.scroll / L.lane), last = Math.min(L.lanes.length - 1, Math.floor((S.scroll + L.height - L.axis) / L.lane));
  c.save(); c.beginPath(); c.rect(L.gutter, L.axis, L.width - L.gutter, L.height - L.axis); c.clip();
  const visible = [];
  for (const row of rowsBetween(first, last)) visible.push(...livesIn(row));
  const touched = S.variable < 0 ? null : new Map(touching(S.variable));
  const dim = touched && new Set([...touched.keys()].map(e => lifeOf[e]));
  const faded = index => { c.globalAlpha = c.base = dim && !dim.has(index) ? 0.28 : 1; };
  for (const index of visible) { faded(index); bars(c, index); }
  c.globalAlpha = c.base = 1;
  declarations(c);
  if (L.perEvent > 0.8) arrows(c);
  for (const index of visible) { faded(index); marks(c, index, touched); }
  c.globalAlpha = c.base = 1;
  cursor(c);
  c.restore();
  labels(c, first, last);
  axis(c);
  scrollbar(c);
  overview();
  $("none").style.display = L.lanes.length ? "none" : "block";
  $("nonetext").textContent = isFiltered() ? "Nothing in this window matches the filters." : "No event is in this window.";
  timeOfDraw = performance.now() - begin;
}

// The rows to draw of the lanes in sight: of those that share two pixels the one with the longest life.
function rowsBetween(first, last) {
  const all = rows().list, each = Math.max(1, Math.ceil(2 / L.lane)), found = [];
  const length = row => (lives[row[0]].end || E) - lives[row[0]].start;
  for (let at = first; at <= last; at += each) {
    let best = all[L.lanes[at]];
    for (let i = at + 1; i < Math.min(at + each, last + 1); i++) if (length(all[L.lanes[i]]) > length(best)) best = all[L.lanes[i]];
    found.push(best);
  }
  return found;
}

// The lives of a row in the window; of those that share a pixel one.
function livesIn(row) {
  if (row.length == 1) return shown[row[0]] ? row : [];
  let low = 0, high = row.length;
  while (low < high) { const middle = (low + high) >> 1; if ((lives[row[middle]].end || E + 1) < S.from) low = middle + 1; else high = middle; }
  const found = [];
  for (let i = low, right = -1e9; i < row.length && lives[row[i]].start <= S.to; i++) {
    const x = X(lives[row[i]].end || E + 1);
    if (shown[row[i]] && x > right + 1.5) { found.push(row[i]); right = x; }
  }
  return found;
}

function bars(c, index) {
  const life = lives[index], y = yOf(index), height = Math.max(2, L.lane < 8 ? L.lane : Math.round(L.lane * 0.6));
  const place = [], n = life.at.length;
  for (let i = Math.max(0, lastUpTo(life.at, S.from)); i < n && life.at[i] <= S.to; ) {
    const left = Math.max(X(life.at[i]), L.gutter - 6), right = Math.min(X(endOf(life, i) > E ? E + 0.5 : endOf(life, i)), L.width + 6);
    bar(c, look(life, i), left, right, y, height);
    if (right - left > 26) place.push([i, left, right]);
    const next = right - left < 1 ? lastUpTo(life.at, eventAtX(left + 1)) : i;
    i = Math.max(i, next) + 1;
  }
  if (L.lane < 18) return;
  c.font = `11px ${FONT}`; c.textBaseline = "middle"; c.textAlign = "left";
  for (const [i, left, right] of place) inside(c, life, i, left, right, y);
}

function inside(c, life, i, left, right, y) {
  const what = look(life, i), prefix = S.by != "ticket" && i == lastUpTo(life.at, Math.max(S.from, life.start)) ? `${life.ticket} ` : "";
  const free = right - left - 20, first = i == life.at.length - 1 && life.how == "finished" ? firstNew[life.end] : null;
  let text = prefix;
  if (what == "stale") text += causes(life, i).map(changeText).join(", ");
  else if (what != "new") text += verdictText(life.verdict[i], first);
  else if (S.by == "client") text += titleOf(life).slice(0, 200);
  if (what == "stale" && c.measureText(text).width > free) text = prefix + causes(life, i).map(it => nameOf(it[0])).join(" ");
  text = shorten(c, text, free) || shorten(c, prefix, free);
  if (!text) return;
  if (what == "stale") { c.fillStyle = color.ground; c.fillRect(left + 9, y - 7, c.measureText(text).width + 6, 14); }
  c.fillStyle = what == "commits" || what == "throws" ? color.on : color.ink;
  c.fillText(text, left + 12, y + 0.5);
}

function shorten(c, text, room) {
  if (c.measureText(text).width <= room) return text;
  let n = Math.floor(text.length * room / c.measureText(text).width);
  while (n > 3 && c.measureText(text.slice(0, n) + "…").width > room) n--;
  return n > 3 ? text.slice(0, n) + "…" : "";
}

function marks(c, index, touched) {
  if (L.lane < 8 && !touched) return;
  const life = lives[index], y = yOf(index), r = clamp(L.perEvent * 0.42, 1, Math.min(8, L.lane * 0.3));
  let last = -1e9;
  for (let i = Math.max(0, lastUpTo(life.at, S.from - 1)); i < life.at.length && life.at[i] <= S.to + 1; i++) {
    const x = X(life.at[i]);
    if (life.state[i] == STALE || x - last < 0.6) continue;
    if (!life.at[i]) continue;
    if (r > 1.4) sign(c, i || life.state[i] ? "i" : "s", x, y, r);
    if (touched?.get(life.at[i]) == "R") badge(c, "R", x, y);
    last = x;
  }
  for (const [e] of life.named) if (e && r > 1.4 && e >= S.from - 1 && e <= S.to + 1) sign(c, "l", X(e), y, r);
  if (life.end && life.end <= S.to + 1) {
    sign(c, endKind(life), X(life.end), y, Math.max(r, 1.4));
    if (touched?.get(life.end) == "W") badge(c, "W", X(life.end), y);
  }
  if (index == S.life) {
    const left = Math.max(X(life.start), L.gutter - 4) - 3;
    c.strokeStyle = color.cursor; c.lineWidth = 1.5;
    c.strokeRect(left, y - L.lane / 2 + 1.5, X(life.end || E + 0.5) + 3 - left, L.lane - 3);
  }
}

function badge(c, letter, x, y) {
  const top = y - L.lane / 2;
  c.fillStyle = color.cursor;
  if (L.perEvent < 2) return c.fillRect(x - 1, top, 2, L.lane);
  c.beginPath(); c.roundRect(x - 6, top - 1, 12, 12, 3); c.fill();
  c.fillStyle = color.paper; c.font = `700 9px ${FONT}`; c.textAlign = "center"; c.textBaseline = "middle";
  c.fillText(letter, x, top + 5.5);
}

// A line through the lanes for each variable that is declared, with its sign at the top.
function declarations(c) {
  let last = -1e9;
  for (let i = Math.max(0, lastUpTo(declaredAt, S.from - 1)); i < declaredAt.length && declaredAt[i] <= S.to + 1; i++) {
    const x = X(declaredAt[i]);
    if (x - last < 1) continue;
    c.fillStyle = color.declared; c.globalAlpha = 0.45; c.fillRect(Math.round(x) - 0.5, L.axis, 1, L.height); c.globalAlpha = 1;
    if (L.perEvent > 2) sign(c, "d", x, L.axis + 6, clamp(L.perEvent * 0.42, 2, 6));
    last = x;
  }
}

function arrows(c) {
  c.lineWidth = L.perEvent > 5 ? 1.6 : 1; c.strokeStyle = c.fillStyle = color.arrow;
  for (let e = Math.max(1, Math.ceil(S.from)); e <= Math.min(E, S.to); e++) {
    if (!madeStale[e]) continue;
    const source = yOf(lifeOf[e]), x = X(e), isChosen = S.hover?.arrow == e || S.at == e;
    let low = source ?? 1e9, high = source ?? -1e9;
    const isOfVariable = S.variable < 0 || changes[e]?.some(it => it[0] == S.variable);
    c.globalAlpha = isChosen ? 1 : !isOfVariable ? 0.2 : L.perEvent > 5 ? 0.85 : 0.5;
    for (const index of madeStale[e]) {
      const y = yOf(index);
      if (y === null) continue;
      const down = source === null || y > source ? 1 : -1, tip = y - down * L.lane * 0.3;
      low = Math.min(low, tip); high = Math.max(high, tip);
      if (L.perEvent > 4 && y > -L.lane && y < L.height + L.lane) arrowHead(c, x, tip, down);
    }
    if (low < high) { c.lineWidth = isChosen ? 2.4 : L.perEvent > 5 ? 1.6 : 1; c.beginPath(); c.moveTo(x, low); c.lineTo(x, high); c.stroke(); }
  }
  c.globalAlpha = 1;
}

function arrowHead(c, x, tip, down) {
  c.beginPath(); c.moveTo(x, tip); c.lineTo(x - 4, tip - 7 * down); c.lineTo(x + 4, tip - 7 * down); c.fill();
}

function grid(c) {
  for (let at = Math.floor(S.scroll / L.lane); at < L.lanes.length; at++) {
    const y = L.axis + at * L.lane - S.scroll;
    if (y > L.height || L.lane < 8) break;
    if (at % 2) { c.fillStyle = color.band; c.fillRect(0, y, L.width, L.lane); }
  }
  c.fillStyle = color.grid;
  for (const e of ticks()) c.fillRect(Math.round(X(e)), L.axis, 1, L.height);
}

function ticks() {
  const least = (String(Math.ceil(S.to)).length * 7 + 16) / L.perEvent;
  let each = 1;
  for (const it of [1, 2, 5]) for (let p = 1; p < 1e7; p *= 10) if (it * p >= least && (each < least || it * p < each)) each = it * p;
  const found = [];
  for (let e = Math.max(each, Math.ceil(S.from / each) * each); e <= Math.min(E, S.to); e += each) found.push(e);
  if (1 >= S.from && found[0] != 1 && (found[0] ?? 1e9) - 1 > least) found.unshift(1);
  return found;
}

function axis(c) {
  c.fillStyle = color.paper; c.fillRect(0, 0, L.width, L.axis);
  c.fillStyle = color.line; c.fillRect(0, L.axis - 1, L.width, 1); c.fillRect(L.gutter - 1, 0, 1, L.height);
  c.font = `11px ${FONT}`; c.fillStyle = color.muted; c.textBaseline = "middle"; c.textAlign = "center";
  const half = c.measureText(S.at).width + 8;
  const isFree = x => x > L.gutter + 6 && x < L.width - 12 && (!S.at || Math.abs(x - X(S.at)) > half);
  for (const e of ticks()) if (isFree(X(e))) c.fillText(e, X(e), L.axis / 2);
  c.textAlign = "left"; c.fillText(S.by + (S.by == "ticket" ? ` (${L.lanes.length.toLocaleString("en")})` : ""), 10, L.axis / 2);
  c.textAlign = "right"; if (L.width >= 600) c.fillText("event", L.gutter - 8, L.axis / 2);
  const x = X(S.at), text = String(S.at), width = c.measureText(text).width + 10;
  if (x < L.gutter || x > L.width || !S.at) return;
  c.fillStyle = color.cursor; c.beginPath(); c.roundRect(x - width / 2, 4, width, L.axis - 9, 4); c.fill();
  c.fillStyle = color.paper; c.textAlign = "center"; c.fillText(text, x, L.axis / 2 - 0.5);
}

function cursor(c) {
  if (!S.at) return;
  c.fillStyle = color.cursor; c.globalAlpha = 0.7; c.fillRect(Math.round(X(S.at)) - 0.5, L.axis, 1, L.height); c.globalAlpha = 1;
}

function labels(c, first, last) {
  const all = rows(), wide = Math.max(2, String(lives.at(-1)?.ticket ?? "").length) * 7 + 12;
  c.save(); c.beginPath(); c.rect(0, L.axis, L.gutter - 4, L.height); c.clip();
  c.textBaseline = "middle";
  const each = Math.ceil(11 / L.lane);
  for (let at = first; at <= last; at += each) {
    const row = L.lanes[at], y = L.axis + (at + 0.5) * L.lane - S.scroll, small = L.lane < 18;
    const life = S.by == "ticket" ? lives[row] : null;
    if (all.list[row].includes(S.life)) { c.fillStyle = color.cursor; c.fillRect(0, y - L.lane / 2 + 1, 3, L.lane - 2); }
    c.font = `${small ? 9 : 11}px ${FONT}`; c.fillStyle = color.muted; c.textAlign = "right";
    if (life) c.fillText(life.ticket, wide, y);
    c.font = `${small ? 9 : 11}px ${MONO}`; c.fillStyle = color.ink; c.textAlign = "left";
    const text = L.lane < 11 ? "" : life ? titleOf(life) : at > first && all.label[row] == all.label[L.lanes[at - 1]] ? "" : all.label[row];
    if (text) c.fillText(shorten(c, text.slice(0, 80), L.gutter - (life ? wide : 0) - 18), (life ? wide : 0) + 8, y);
  }
  c.restore();
}

function scrollbar(c) {
  const room = L.height - L.axis, all = L.lanes.length * L.lane + 6;
  if (all <= room) return;
  c.fillStyle = color.muted; c.globalAlpha = 0.5;
  c.beginPath(); c.roundRect(L.width - 8, L.axis + room * S.scroll / all + 2, 5, Math.max(20, room * room / all - 4), 2.5); c.fill();
  c.globalAlpha = 1;
}

// The whole history: finishes above, made stale below, and the window.
let bins = null;
function overview() {
  const c = fit(over), width = over.clientWidth, height = over.clientHeight, n = Math.max(1, Math.min(E, Math.floor(width / 3)));
  if (bins?.n != n) {
    bins = {n, done: new Float32Array(n), stale: new Float32Array(n)};
    for (let e = 1; e <= E; e++) {
      const at = Math.floor((e - 1) * n / E);
      if (kindOf(e) == "f") bins.done[at]++;
      bins.stale[at] += madeStale[e]?.length ?? 0;
    }
    bins.most = Math.max(1, ...bins.done); bins.worst = Math.max(1, ...bins.stale);
  }
  const step = width / n, middle = height / 2;
  c.clearRect(0, 0, width, height);
  for (let i = 0; i < n; i++) {
    c.fillStyle = color.finished; const up = bins.done[i] / bins.most * (middle - 3); c.fillRect(i * step, middle - up, Math.max(1, step - 1), up);
    c.fillStyle = color.hatch; c.fillRect(i * step, middle, Math.max(1, step - 1), bins.stale[i] / bins.worst * (middle - 3));
  }
  c.fillStyle = color.line; c.fillRect(0, Math.round(middle), width, 1);
  const left = (S.from - 0.5) / E * width, right = (S.to - 0.5) / E * width;
  c.fillStyle = color.ink; c.globalAlpha = 0.13; c.fillRect(0, 0, left, height); c.fillRect(right, 0, width, height); c.globalAlpha = 1;
  c.strokeStyle = color.ink; c.lineWidth = 1.5; c.strokeRect(left + 0.75, 0.75, Math.max(2, right - left - 1.5), height - 1.5);
  if (S.at) { c.fillStyle = color.cursor; c.fillRect((S.at - 0.5) / E * width - 0.5, 0, 1.5, height); }
  const [first, last] = [Math.max(1, Math.ceil(S.from)), Math.min(E, Math.floor(S.to))].map(it => it.toLocaleString("en"));
  over.setAttribute("aria-valuemax", E); over.setAttribute("aria-valuenow", clamp(Math.ceil(S.from), 1, E));
  over.setAttribute("aria-valuetext", `events ${first} to ${last} of ${E.toLocaleString("en")}`);
}

function legend() {
  const signs = [["s", "submitted"], ["i", "evaluated"], ["f", "finished"], ["t", "finished by a throw"], ["c", "cancelled"]];
  if (data.kinds.includes("l")) signs.push(["l", "labelled"]);
  if (declaredAt.length) signs.push(["d", "variable declared"]);
  const looks = [["new", "new"], ["commits", "current"], ["blocks", "current, blocks"], ["throws", "current, throws"], ["stale", "stale"]];
  $("legend").replaceChildren(...[...signs, ...looks, ["arrow", "makes stale"]].map(([kind, text]) => {
    const span = document.createElement("span"), canvas = document.createElement("canvas");
    span.append(canvas, text);
    canvas.width = 52; canvas.height = 32;
    const c = canvas.getContext("2d"); c.scale(2, 2);
    if (kind.length == 1) sign(c, kind, 13, 8, 7);
    else if (kind == "arrow") {
      c.strokeStyle = c.fillStyle = color.arrow; c.lineWidth = 1.6;
      c.beginPath(); c.moveTo(13, 15); c.lineTo(13, 5); c.stroke();
      arrowHead(c, 13, 0, -1);
    } else bar(c, kind, 0, 26, 8, 13);
    return span;
  }));
}
