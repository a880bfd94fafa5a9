// ---- What a user does ----------------------------------------------------------------------------------------------

let asked = 0, isPanelAsked = false;
function redraw() { asked ||= requestAnimationFrame(() => { asked = 0; draw(); }); }
function refresh() { isPanelAsked || requestAnimationFrame(() => { isPanelAsked = false; panel(true); }); isPanelAsked = true; redraw(); remember(); }

function go(e, isShown = true) {
  S.at = clamp(Math.round(e), 0, E);
  if (isShown && (S.at < S.from || S.at > S.to)) view(S.at - (S.to - S.from) / 2, S.at + (S.to - S.from) / 2);
  if (S.state && ["new", "current", "stale", "blocks"].includes(S.state)) filter();
  if (isShown && S.at && lifeOf[S.at] >= 0) reveal(lifeOf[S.at]);
  if (document.activeElement != $("at")) $("said").textContent = said(S.at); // else the slider says it
  refresh();
}

const said = e => e ? `event ${e}: ${lifeOf[e] < 0 ? "" : `ticket ${lives[lifeOf[e]].ticket} `}${eventText(e)}` : "before the first event";

function reveal(index) {
  L.perEvent = (L.width - L.gutter - 14) / (S.to - S.from); lanes();
  const y = yOf(index);
  if (y === null || y > L.axis + L.lane / 2 - 1 && y < L.height - L.lane / 2) return;
  S.scroll = clamp(S.scroll + y - L.height / 2, 0, mostScroll());
}

function view(from, to) {
  const width = clamp(to - from, Math.min(4, E), E + 0.5);
  S.from = clamp(from, 0, E + 0.5 - width); S.to = S.from + width;
  redraw(); remember();
}

function zoom(factor, middle = (S.from + S.to) / 2) { view(middle - (middle - S.from) * factor, middle + (S.to - middle) * factor); }
function shift(part) { const by = (S.to - S.from) * part; view(S.from + by, S.to + by); }
function scroll(by) { S.scroll = clamp(S.scroll + by, 0, mostScroll()); redraw(); }

function choose(kind, it) {
  if (kind == "variable" && !store[it]) return;
  if (kind == "life") { S.life = it; S.tab = "ticket"; } else { S.variable = it; S.tab = "variable"; }
  S.isStore = false; refresh();
}

// The next event, in this direction, of the chosen ticket or variable, or one that the filters let through.
function step(direction) {
  const life = lives[S.life];
  let list = S.variable >= 0 ? touching(S.variable).map(it => it[0]) : null;
  if (life) list = eventsOf(life);
  if (list) { const at = direction > 0 ? list[lastUpTo(list, S.at) + 1] : list[lastUpTo(list, S.at - 1)]; if (at) go(at); return; }
  for (let e = S.at + direction; e >= 1 && e <= E; e += direction) if (passes(e)) return go(e);
}

// The next finish in this direction, whatever is chosen: in the history of an exploration the steps of its order.
function toFinish(direction) { for (let e = S.at + direction; e >= 1 && e <= E; e += direction) if (kindOf(e) == "f") return go(e); }

const deeds = {
  in: () => zoom(0.6), out: () => zoom(1 / 0.6), all: () => view(0.5, E + 0.5),
  left: () => shift(-0.4), right: () => shift(0.4),
  prev: () => go(S.at - 1), next: () => go(S.at + 1),
  match: () => { for (let n = 1, e = Math.max(S.at, Math.floor(S.to)); n <= E; n++) { e = e % E + 1; if (passes(e)) return go(e); } },
  theme: () => { const name = document.documentElement.dataset.theme == "dark" ? "light" : "dark"; keep("stmdesk-theme", name); theme(name); },
  help: () => $("help").showModal(),
  clear: () => {
    for (const id of ["text", "variable", "state"]) $(id).value = "";
    Object.assign(S, {life: -1, variable: -1, text: "", name: "", state: "", tab: "event"});
    filter(); refresh();
  },
};

function by(name) { S.by = name; S.scroll = 0; refresh(); }
function keep(key, value) { try { localStorage.setItem(key, value); } catch { /* a page from a file may have none */ } }

document.addEventListener("click", it => {
  const target = it.target.closest("[data-event],[data-life],[data-variable],[data-do],[data-by],[data-tab],[data-low],[data-clear]");
  if (!target) return;
  const d = target.dataset;
  if (d.event) go(+d.event);
  if (d.life) {
    choose("life", +d.life);
    const life = lives[S.life], from = life.start - 10;
    if (life.start > S.to || (life.end || E) < S.from) view(from, from + S.to - S.from);
    reveal(S.life);
  }
  if (d.variable) choose("variable", +d.variable);
  if (d.do) deeds[d.do]();
  if (d.by) by(d.by);
  if (d.tab) { S.isStore = d.tab == "store"; if (!S.isStore) S.tab = d.tab; panel(true); }
  if (d.low) { S.low = d.low; $("below").scrollTop = 0; panel(true); }
  if (d.clear) { S.variable = -1; S.tab = "event"; refresh(); }
});

$("at").addEventListener("input", it => go(+it.target.value));
$("find").addEventListener("input", () => { $("below").scrollTop = 0; below(false); });
$("below").addEventListener("scroll", () => below(false));
for (const [id, name] of [["text", "text"], ["variable", "name"], ["state", "state"]]) {
  $(id).addEventListener("input", it => { S[name] = it.target.value; filter(); });
  $(id).addEventListener("keydown", it => { if (it.key == "Enter") deeds.match(); });
}

document.addEventListener("keydown", it => {
  if (it.ctrlKey || it.metaKey || it.altKey || $("help").open) return;
  const isTyping = /INPUT|SELECT/.test(it.target.tagName) && it.target.type != "range";
  if (it.key == "Escape") { it.target.blur?.(); deeds.clear(); return; }
  if (isTyping) return;
  const chosen = it.target.closest?.("[role=link],.row"), isBelow = $("below").contains(it.target);
  const row = isBelow && {ArrowUp: chosen?.previousElementSibling, ArrowDown: chosen?.nextElementSibling}[it.key];
  if (chosen && /^(Enter| )$/.test(it.key)) { chosen.click(); it.preventDefault(); return; }
  if (row) { row.focus(); it.preventDefault(); return; }
  const moves = {
    ArrowLeft: deeds.left, ArrowRight: deeds.right, ArrowUp: deeds.right, ArrowDown: deeds.left, PageUp: deeds.right, PageDown: deeds.left,
    Home: () => view(0.5, 0.5 + S.to - S.from), End: () => view(E, E + S.to - S.from),
  };
  const keys = {
    ArrowLeft: () => go(S.at - (it.shiftKey ? 10 : 1)), ArrowRight: () => go(S.at + (it.shiftKey ? 10 : 1)), Home: () => go(0), End: () => go(E),
    ArrowUp: () => scroll(-L.lane * 3), ArrowDown: () => scroll(L.lane * 3),
    PageUp: () => scroll(-L.height * 0.8), PageDown: () => scroll(L.height * 0.8),
    "+": deeds.in, "=": deeds.in, "-": deeds.out, 0: deeds.all, "[": deeds.left, "]": deeds.right, n: () => step(1), p: () => step(-1),
    ".": () => toFinish(1), ",": () => toFinish(-1),
    l: () => by({ticket: "client", client: "block", block: "ticket"}[S.by]), "/": () => $("text").focus(), t: deeds.theme, "?": deeds.help,
    ...it.target == over ? moves : {},
  };
  if (!keys[it.key] || (isBelow || it.target.id == "main") && /Arrow(Up|Down)|Page/.test(it.key)) return;
  keys[it.key](); it.preventDefault();
});

// What is below a place of the chart: an arrow or a declaration (its event), or a life with its stretch and, near a sign, its event.
function hit(x, y) {
  if (y < L.axis || x > L.width) return null;
  const row = L.lanes[Math.floor((y - L.axis + S.scroll) / L.lane)], e = eventAtX(x), near = Math.round(e);
  const isNear = Math.abs(X(near) - x) <= 7 && near >= 1 && near <= E && x >= L.gutter;
  const among = row === undefined ? [] : rows().list[row];
  if (x < L.gutter) return among.length ? {life: among[Math.max(0, lastUpTo(among.map(i => lives[i].start), S.to))], part: -1, event: 0} : null;
  const index = among.find(i => shown[i] && lives[i].start <= e + 0.5 && (lives[i].end || E + 1) >= e - 0.5);
  const life = lives[index];
  if (isNear && life && lifeOf[near] == index) return {life: index, part: lastUpTo(life.at, near), event: near};
  if (isNear && madeStale[near]) {
    const ys = [lifeOf[near], ...madeStale[near]].map(yOf).filter(it => it !== null);
    if (y >= Math.min(...ys) && y <= Math.max(...ys) && Math.abs(X(near) - x) <= 5) return {arrow: near, event: near};
  }
  if (!life || e < life.start || life.end && e > life.end) return isNear && kindOf(near) == "d" ? {declared: near, event: near} : null;
  return {life: index, part: lastUpTo(life.at, e), event: 0};
}

function hitHtml(it) {
  if (it.arrow) return arrowHtml(it.arrow);
  if (it.declared) return `<p><b>Event ${it.declared}</b>: ${esc(eventText(it.declared))}</p>`;
  const life = lives[it.life], i = it.part;
  let text = `<p><b>Ticket ${life.ticket}</b> ${labelHtml(labelOf(life))}<span class="muted">client ${life.client}</span>${i < 0 ? ` ${esc(outcome(life))}` : ""}</p>`;
  if (it.event) text += `<p>Event ${it.event}: ${esc(eventText(it.event))}</p>`;
  else if (i >= 0) {
    const end = endOf(life, i) > E ? "on" : `to ${endOf(life, i)}`, said = life.state[i] == NEW ? "" : ": " + esc(verdictText(life.verdict[i]));
    text += `<p>${STATES[life.state[i]]}${said} <span class="muted">from event ${life.at[i]} ${end}</span></p>`;
  }
  if (i >= 0 && life.state[i] == STALE) text += `<p>${eventLink(life.why[i])}: ${whyHtml(life, i)}</p>`;
  if (i >= 0 && life.state[i] != NEW) text += `<p>It ${readsHtml(life.reads[i], evaluatedAt(life, i))}.</p>`;
  return text + pretty(blockOf(life));
}

function arrowHtml(e) {
  const made = madeStale[e], why = it => causes(lives[it], lastUpTo(lives[it].at, e)).map(changeText).join(", ");
  return `<p><b>Event ${e}</b>: ticket ${lives[lifeOf[e]].ticket} finishes and makes stale</p>`
    + made.slice(0, 10).map(it => `<p>ticket ${lives[it].ticket}: ${esc(why(it))}</p>`).join("") + (made.length > 10 ? `<p>and ${made.length - 10} more</p>` : "");
}

function tip(it, x, y) {
  const box = $("tip");
  box.style.display = it ? "block" : "none";
  if (!it) return;
  box.innerHTML = hitHtml(it);
  box.style.left = `${clamp(x + 14, 4, innerWidth - box.offsetWidth - 4)}px`;
  box.style.top = `${y + 18 + box.offsetHeight > innerHeight ? Math.max(4, y - box.offsetHeight - 12) : y + 18}px`;
}

const pointers = new Map();
let drag = null;
chart.addEventListener("pointerdown", it => {
  chart.setPointerCapture(it.pointerId); chart.focus({preventScroll: true});
  pointers.set(it.pointerId, it);
  tip(null);
  const isAxis = it.offsetY < L.axis && it.offsetX > L.gutter;
  drag = {x: it.offsetX, y: it.offsetY, from: S.from, to: S.to, scroll: S.scroll, isAxis, hasMoved: false, apart: apart()};
  if (isAxis) go(eventAtX(it.offsetX), false);
});
const apart = () => { const [a, b] = [...pointers.values()]; return b ? Math.max(20, Math.abs(a.offsetX - b.offsetX)) : 0; };
chart.addEventListener("pointermove", it => {
  if (pointers.has(it.pointerId)) pointers.set(it.pointerId, it);
  if (!drag) {
    const found = hit(it.offsetX, it.offsetY), changed = found?.arrow != S.hover?.arrow;
    S.hover = found; chart.style.cursor = it.offsetY < L.axis ? "ew-resize" : found ? "pointer" : "grab";
    if (changed) redraw();
    return tip(found, it.clientX, it.clientY);
  }
  tip(null);
  if (drag.isAxis) return go(eventAtX(it.offsetX), false);
  if (pointers.size > 1) {
    const [a, b] = [...pointers.values()], middle = (a.offsetX + b.offsetX) / 2, now = apart();
    if (drag.apart) zoom(drag.apart / now, eventAtX(middle));
    drag.apart = now; drag.hasMoved = true; return;
  }
  const dx = it.offsetX - drag.x, dy = it.offsetY - drag.y;
  if (!drag.hasMoved && Math.hypot(dx, dy) < 5) return;
  drag.hasMoved = true;
  view(drag.from - dx / L.perEvent, drag.to - dx / L.perEvent);
  S.scroll = clamp(drag.scroll - dy, 0, mostScroll());
});
function lift(it) {
  pointers.delete(it.pointerId);
  if (pointers.size) { drag = null; return; }
  if (drag && !drag.hasMoved && !drag.isAxis && it.type == "pointerup") {
    const found = hit(it.offsetX, it.offsetY);
    if (found?.event) { if (!found.arrow && !found.declared) S.life = found.life; S.tab = "event"; S.isStore = false; go(found.event, false); }
    else if (found) { if (found.part >= 0) go(eventAtX(it.offsetX) - 0.5, false); choose("life", found.life); }
    else { S.life = -1; S.tab = "event"; go(eventAtX(it.offsetX) - 0.5, false); }
    if (it.pointerType == "touch") tip(found, it.clientX, it.clientY);
  }
  drag = null;
}
chart.addEventListener("pointerup", lift);
chart.addEventListener("pointercancel", lift);
chart.addEventListener("pointerleave", it => { if (it.pointerType == "touch") return; S.hover = null; tip(null); redraw(); });
chart.addEventListener("wheel", it => {
  it.preventDefault(); tip(null);
  const unit = it.deltaMode ? 30 : 1, dx = (it.shiftKey ? it.deltaX || it.deltaY : it.deltaX) * unit, dy = it.shiftKey ? 0 : it.deltaY * unit;
  if (it.offsetX < L.gutter && !it.ctrlKey) return scroll(dy);
  if (Math.abs(dx) > Math.abs(dy)) return view(S.from + dx / L.perEvent, S.to + dx / L.perEvent);
  zoom(Math.exp(clamp(dy, -120, 120) * 0.0025), eventAtX(it.offsetX));
}, {passive: false});

function moveWindow(it) { const middle = 0.5 + it.offsetX / over.clientWidth * E, half = (S.to - S.from) / 2; view(middle - half, middle + half); }
over.addEventListener("pointerdown", it => {
  over.setPointerCapture(it.pointerId);
  if (S.to - S.from >= E - 1) view(S.from, S.from + Math.min(E, 80));
  moveWindow(it);
});
over.addEventListener("pointermove", it => { if (it.buttons) moveWindow(it); });
over.addEventListener("wheel", it => { it.preventDefault(); zoom(Math.exp(clamp(it.deltaY, -120, 120) * 0.0025)); }, {passive: false});

// The place in the page's address: #event=17&ticket=3&variable=x&by=client&events=1..40&theme=dark
let rememberTimer = 0;
function remember() {
  clearTimeout(rememberTimer);
  rememberTimer = setTimeout(() => {
    if (location.hash == "#selftest") return;
    const said = [`event=${S.at}`, `events=${Math.ceil(S.from)}..${Math.floor(S.to)}`];
    if (S.life >= 0) said.push(`ticket=${lives[S.life].ticket}`);
    if (S.variable >= 0) said.push(`variable=${encodeURIComponent(nameOf(S.variable))}`);
    if (S.by != firstBy) said.push(`by=${S.by}`);
    try { history.replaceState(null, "", "#" + said.join("&")); } catch { /* not in every browser for a file */ }
  }, 400);
}

function begin() {
  const asked = new URLSearchParams(location.hash.slice(1)), events = (asked.get("events") || "").match(/^(\d+)\.\.(\d+)$/);
  let kept = null;
  try { kept = localStorage.getItem("stmdesk-theme"); } catch { /* none */ }
  const system = matchMedia("(prefers-color-scheme: dark)");
  if (!kept && !asked.get("theme")) system.addEventListener("change", it => theme(it.matches ? "dark" : "light"));
  $("size").textContent = `${count(E, "event")}, ${count(lives.length, "ticket")}`;
  $("at").max = E;
  $("names").replaceChildren(...[...numbers.keys()].slice(0, 2000).map(name => new Option(name)));
  const narrow = innerWidth < 600;
  if (E > (narrow ? 40 : 120)) view(0.5, narrow ? 24.5 : 60.5);
  if (events) view(events[1] - 0.5, +events[2] + 0.5);
  theme(asked.get("theme") || kept || (system.matches ? "dark" : "light"));
  if (["ticket", "client", "block"].includes(asked.get("by"))) S.by = asked.get("by");
  draw();
  if (asked.has("event")) go(+asked.get("event"), !events);
  const life = asked.has("ticket") ? lives.findIndex(it => it.ticket == asked.get("ticket")) : -1;
  const variable = asked.has("variable") ? store.findIndex((it, i) => nameOf(i) == asked.get("variable")) : -1;
  if (variable >= 0) choose("variable", variable);
  if (life >= 0) choose("life", life);
  if (["event", "ticket", "variable"].includes(asked.get("tab"))) S.tab = asked.get("tab");
  addEventListener("resize", () => { lanesKey = ""; refresh(); });
  new ResizeObserver(() => { lanesKey = ""; redraw(); }).observe(chart);
  panel(true);
}
begin();
const timeToShow = performance.now();
