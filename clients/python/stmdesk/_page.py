"""The live page of a server: HTML that shows what it is sent. Its colours and signs are those of tools/view."""

PAGE = """<!doctype html>
<html lang="en">
<head>
<meta charset="utf-8">
<meta name="viewport" content="width=device-width, initial-scale=1">
<title>NAME_OF_SERVER – stmdesk</title>
<style>
:root{color-scheme:light;--page:#f6f8fa;--paper:#fff;--band:#f6f8fa;--ink:#1f2328;--muted:#59636e;--line:#d0d7de;--commits:#0a64c8;
--throws:#a40e26;--new:#6e7781;--stale:#8a5a00;--ground:#fff3d1;--finished:#1a7f37;--declared:#0b7285;--mark:#fff8c5}
@media(prefers-color-scheme:dark){:root{color-scheme:dark;--page:#0d1117;--paper:#12171f;--band:#161c25;--ink:#e6edf3;--muted:#9aa4af;
--line:#3d444d;--commits:#58a6ff;--throws:#ff7b72;--new:#8b949e;--stale:#d29922;--ground:#3a2c07;--finished:#3fb950;--declared:#3bc9db;--mark:#3b2e08}}
*{box-sizing:border-box}
body{margin:0;background:var(--page);color:var(--ink);font:13px/1.45 system-ui,-apple-system,"Segoe UI",Roboto,"DejaVu Sans",sans-serif}
header{display:flex;flex-wrap:wrap;gap:4px 18px;align-items:baseline;padding:10px 14px;background:var(--paper);border-bottom:1px solid var(--line)}
h1{font-size:15px;margin:0}h2{font-size:13px;margin:0 0 6px}
#state{font-weight:600}#state.away{color:var(--throws)}
main{display:grid;gap:12px;padding:12px 14px;grid-template-columns:minmax(0,3fr) minmax(0,2fr)}
section{background:var(--paper);border:1px solid var(--line);border-radius:8px;padding:10px 12px;min-width:0}
section.wide{grid-column:1/-1}
table{width:100%;border-spacing:0;table-layout:fixed}
th{text-align:left;color:var(--muted);font-weight:600;font-size:12px}
td,th{padding:3px 8px 3px 0;vertical-align:top;overflow-wrap:anywhere;border-top:1px solid var(--band)}
.number{width:64px;font-variant-numeric:tabular-nums}.short{width:96px}.middle{width:26%}
code{font-family:ui-monospace,SFMono-Regular,Menlo,Consolas,"DejaVu Sans Mono",monospace;font-size:12px}
.badge{display:inline-block;border:1px solid currentColor;border-radius:4px;padding:0 4px;font-size:11px;font-weight:600}
.new,.labelled{color:var(--new)}.stale{color:var(--stale);background:var(--ground)}.waits{color:var(--commits)}.declared{color:var(--declared)}.ready,.finished{color:var(--finished)}
.cancelled,.muted{color:var(--muted)}tr.changed td{background:var(--mark)}
@media(max-width:760px){main{grid-template-columns:minmax(0,1fr)}}
</style>
</head>
<body>
<header><h1>NAME_OF_SERVER</h1><span id="state" role="status">connecting</span><span id="counts" class="muted"></span></header>
<main>
<section><h2 id="hboard">Board</h2><table aria-labelledby="hboard"><thead><tr><th class="number">ticket</th><th class="short">state</th>
<th class="middle">why</th><th>block</th><th class="middle">for</th></tr></thead><tbody id="board"></tbody></table><p id="boardmore" class="muted"></p></section>
<section><h2 id="hstore">Store</h2><table aria-labelledby="hstore"><thead><tr><th class="number">number</th><th>name</th><th>type</th>
<th>value</th><th class="number">count</th></tr></thead><tbody id="store"></tbody></table><p id="storemore" class="muted"></p></section>
<section class="wide"><h2 id="hevents">Last events</h2><table aria-labelledby="hevents"><thead><tr><th class="number">number</th>
<th class="number">ticket</th><th class="short">event</th><th>what</th></tr></thead><tbody id="events"></tbody></table></section>
</main>
<script nonce="NONCE_OF_PAGE">
"use strict";
const $ = id => document.getElementById(id);
let updates = 0, before = new Map();

function cell(text, kind) {
  const td = document.createElement("td");
  if (kind == "code") { const code = document.createElement("code"); code.textContent = text; td.append(code); }
  else if (kind) { const badge = document.createElement("span"); badge.className = "badge " + kind; badge.textContent = text; td.append(badge); }
  else td.textContent = text;
  return td;
}

function fill(id, rows) {
  $(id).replaceChildren(...rows.map(({cells, changed}) => {
    const tr = document.createElement("tr");
    if (changed) tr.className = "changed";
    tr.append(...cells.map(it => cell(...it)));
    return tr;
  }));
}

const value = it => it === null ? "()" : it === true ? "True" : it === false ? "False" : typeof it == "object" ? "#" + (it.old ?? "new" + it.new) : String(it);

function said(it) {
  if (it.event == "submitted") return it.block;
  if (it.event == "cancelled") return "";
  if (it.event == "labelled") return it.label;
  if (it.event == "declared") return `${it.name} : ${it.type} = ${value(it.init)}`;
  const verdict = it.verdict;
  if (verdict == "blocks") return "blocks";
  if ("throws" in verdict) return "throws " + verdict.throws;
  const writes = verdict.commits.writes.map(([at, to]) => `#${at}=${value(to)}`).join(" ");
  const stale = it.stale && it.stale.length ? " makes stale " + it.stale.join(" ") : "";
  return `result ${value(verdict.commits.result)}` + (writes ? ` writes ${writes}` : "") + stale;
}

function show(it) {
  $("state").textContent = it.state; $("state").className = "";
  $("counts").textContent = Object.entries(it.counts).map(([name, n]) => `${name} ${n.toLocaleString("en")}`).join("  ·  ");
  fill("board", it.board.map(row => ({cells: [[row.ticket], [row.state, row.state], [row.why, "code"], [row.block, "code"], [row.who]]})));
  $("boardmore").textContent = it.boardMore ? `and ${it.boardMore} more` : it.board.length ? "" : "nobody waits";
  fill("store", it.store.map(([number, name, type, value, count]) => {
    const changed = before.has(number) && before.get(number) != value;
    return {cells: [[number], [name, "code"], [type, "code"], [value, "code"], [count]], changed};
  }));
  before = new Map(it.store.map(([number, , , value]) => [number, value]));
  $("storemore").textContent = it.storeMore;
  fill("events", it.events.map(([number, text]) => {
    const event = JSON.parse(text), kind = event.event == "installed" ? "evaluated" : event.event == "finished" && "throws" in event.verdict ? "threw" : event.event;
    return {cells: [[number], [event.ticket ?? ""], [kind, event.event == "installed" ? "waits" : event.event], [said(event), "code"]]};
  }));
  document.body.dataset.updates = ++updates;
}

const source = new EventSource("events");
source.onmessage = it => show(JSON.parse(it.data));
source.onerror = () => { $("state").textContent = "the server is away; trying again"; $("state").className = "away"; };
</script>
</body>
</html>
"""
