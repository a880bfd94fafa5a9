// ---- The panel -----------------------------------------------------------------------------------------------------

function eventHtml(e) {
  const before = data.waiting.length ? ` ${count(data.waiting.length, "block")} already wait${data.waiting.length == 1 ? "s" : ""}.` : "";
  if (!e) return `<h2>Before the first event</h2><p>The store has ${count(data.vars.filter(it => it[0] !== null).length, "declared variable")}.${before}</p>${wholeHtml()}`;
  const index = lifeOf[e], life = lives[index], kind = kindOf(e), client = data.client[e - 1] || 0;
  const who = client == data.worker ? `client ${client} for client ${life.client}` : `client ${client}`;
  let text = `<h2>Event ${e} <span class="muted">line ${1 + data.vars.length + data.waiting.length + e}, ${who}</span></h2>`;
  if (kind == "d") {
    const [name, type, init] = data.declared[argOf(e)], number = numbers.get(name);
    return text + `<p>${variableLink(number)} is <b>declared</b>, as #${number} : ${esc(type)} = ${valueHtml(init)}.</p>`;
  }
  const i = kind == "i" ? lastUpTo(life.at, e) : life.at.length - 1;
  if (kind == "s") text += `<p>${ticketLink(index)} is <b>submitted</b>.</p>${pretty(blockOf(life))}`;
  if (kind == "i") text += `<p>${ticketLink(index)} is <b>evaluated</b>: ${esc(verdictText(argOf(e)))}.</p><p>It ${readsHtml(life.reads[i], e)}.</p>`;
  if (kind == "i") text += pretty(blockOf(life));
  if (kind == "l") {
    const label = data.labels[argOf(e)];
    text += `<p>${label ? `${ticketLink(index)} is <b>labelled</b> <span class="mono">${esc(label)}</span>` : `The label of ${ticketLink(index)} is taken away`}.</p>`;
    text += pretty(blockOf(life));
  }
  if (kind == "c") text += `<p>${ticketLink(index)} is <b>cancelled</b>.</p>${pretty(blockOf(life))}`;
  if (kind == "f") {
    const made = madeStale[e] || [], changed = changes[e] || [];
    text += `<p>${ticketLink(index)} <b>finishes</b>: ${esc(verdictText(argOf(e), firstNew[e]))}.</p>`;
    text += "<h3>Changes</h3>" + (itemsHtml(changed, it => `<span>${changeHtml(it)}</span>`) || '<p class="muted">no variable</p>');
    if (made.length) text += "<h3>Makes stale</h3>" + itemsHtml(made, it => ticketLink(it) + hadReadHtml(lives[it], e));
    text += `<h3>Block</h3>${pretty(blockOf(life))}`;
  }
  return text;
}

const itemsHtml = (all, html) => all.length ? `<ul class="list">${all.slice(0, 100).map(it => `<li>${html(it)}</li>`).join("")}</ul>`
  + (all.length > 100 ? `<p class="muted">and ${all.length - 100} more</p>` : "") : "";

// What a block that a finish made stale had read of what this changed.
function hadReadHtml(life, e) {
  const at = lastUpTo(life.at, e), why = causes(life, at);
  if (life.reads[at] < 0) return '<span class="muted">(what it had read isn\'t known)</span>';
  return `<span class="muted">which had read ${some(why, 6, it => `${variableLink(it[0])}=${valueHtml(it[1])}`)}</span>`;
}

function wholeHtml() {
  const ended = how => lives.filter(it => it.how == how).length.toLocaleString("en");
  return `<p class="muted">${count(E, "event")}, ${count(lives.length, "ticket")}, format ${data.format}. Of the tickets ${ended("finished")}
finished, ${ended("throws")} threw, ${ended("cancelled")} were cancelled and ${ended("")} still wait.</p>`
    + (data.worker < 0 ? "" : '<p class="muted">In the history of an exploration each finish is a step. <kbd>.</kbd> goes to the next one, <kbd>,</kbd> back.</p>');
}

function ticketHtml(index) {
  if (index < 0) return '<p class="muted">Choose a ticket: click its lane.</p>';
  const life = lives[index], at = stretchAt(life, S.at), all = eventsOf(life);
  const line = place => {
    const e = all[place], i = lastUpTo(life.at, e);
    if (e == life.end) return esc(outcome(life));
    if (kindOf(e) == "l") return esc(eventText(e));
    if (life.state[i] == NEW) return "submitted";
    if (life.state[i] == STALE) return `<b>stale</b>: ${whyHtml(life, i)}`;
    return `evaluated: ${esc(verdictText(life.verdict[i]))}; ${readsHtml(life.reads[i], life.at[i])}`;
  };
  const now = S.at < life.start ? "not submitted yet" : at < 0 ? outcome(life) : stateText(life, at);
  let text = `<h2>Ticket ${life.ticket} ${labelHtml(labelOf(life))}<span class="muted">client ${life.client}</span></h2><p>At event ${S.at}: <b>${esc(now)}</b></p>`;
  const since = life.why[at] ? `${eventLink(life.why[at])}: ` : "";
  if (at >= 0 && life.state[at] == STALE) text += `<p>Why stale: ${since}${whyHtml(life, at)}</p>`;
  if (at > 0) text += `<p>It ${readsHtml(life.reads[at], evaluatedAt(life, at))}.</p>`;
  return text + pretty(blockOf(life)) + "<h3>Its events</h3>" + listHtml(all, line);
}

const labelHtml = label => label ? `<span class="mono">${esc(label)}</span> ` : "";

// The event of the last evaluation in or before a stretch that isn't new.
const evaluatedAt = (life, i) => life.at[life.state[i] == STALE && i ? i - 1 : i];

// Events, and what `html` says of each by its place among them: of many those near the event that is shown.
function listHtml(events, html) {
  const from = clamp(lastUpTo(events, S.at - 1) - 100, 0, Math.max(0, events.length - 200)), near = events.slice(from, from + 200);
  const more = n => n > 0 ? `<li class="muted"><span></span>${count(n, "event")} more</li>` : "";
  const line = (e, i) => `<li${e == S.at ? ' class="at"' : ""}>${link("event", e, e)}<span>${html(from + i)}</span></li>`;
  const lines = near.map(line).join("");
  return lines ? `<ul class="list">${more(from)}${lines}${more(events.length - from - 200)}</ul>` : '<p class="muted">none</p>';
}

function variableHtml(variable) {
  if (variable < 0) return '<p class="muted">Choose a variable: click it in the store or in a block.</p>';
  const it = store[variable], all = touching(variable), now = valueAt(variable, S.at);
  const line = i => {
    const [e, how] = all[i];
    if (lifeOf[e] < 0) return `<span class="badge">${how}</span> declared with ${valueHtml(it.value[0])}`;
    const said = how == "R" ? `read ${valueHtml(valueAt(variable, e))}` : wroteHtml(variable, e);
    return `<span class="badge">${how}</span> ${ticketLink(lifeOf[e])} ${said}`;
  };
  return `<h2>${esc(nameOf(variable))} <span class="muted">#${variable} : ${esc(it.type)}</span></h2>
<p>At event ${S.at}: <b>${now === undefined ? "not made yet" : valueHtml(now)}</b>, changed ${count(Math.max(0, lastUpTo(it.at, S.at)), "time")} so far</p>
<p>${link("clear", 1, "show all lanes alike again")}</p><h3>Who read it (R) and who wrote it (W)</h3>${listHtml(all.map(it => it[0]), line)}`;
}

// What a finish did to a variable that it wrote or made.
function wroteHtml(variable, e) {
  const made = (madeStale[e] || []).filter(it => causes(lives[it], lastUpTo(lives[it].at, e)).some(w => w[0] == variable));
  const change = (changes[e] || []).find(it => it[0] == variable), stale = made.length ? `, makes ${some(made, 6, ticketLink)} stale` : "";
  if (store[variable].at[0] == e) return `made it with ${valueHtml(store[variable].value[0])}`;
  return `wrote ${change ? `${valueHtml(change[1])} → ${valueHtml(change[2])}` : "the value that it had"}${stale}`;
}

// A list of rows of which only those in sight are made.
const ROW = 24;
function rowsOf(box, n, row, at) {
  const inner = box.firstElementChild ?? box.appendChild(document.createElement("div"));
  inner.style.height = `${n * ROW}px`;
  if (at >= 0 && (at * ROW < box.scrollTop || (at + 1) * ROW > box.scrollTop + box.clientHeight)) box.scrollTop = (at + 0.5) * ROW - box.clientHeight / 2;
  const first = Math.max(0, Math.floor(box.scrollTop / ROW) - 2), last = Math.min(n, Math.ceil((box.scrollTop + box.clientHeight) / ROW) + 2);
  let text = "";
  for (let i = first; i < last; i++) text += row(i, `style="top:${i * ROW}px" role="button" tabindex="0"`);
  const focused = keyOf(document.activeElement), hasFocus = inner.contains(document.activeElement);
  inner.innerHTML = text;
  if (hasFocus) ([...inner.children].find(it => keyOf(it) == focused) ?? box).focus({preventScroll: true});
}

const keyOf = row => row?.dataset.event ?? row?.dataset.variable;

let cells = [];
function below(follow) {
  const box = $("below");
  if (S.low == "events") {
    return rowsOf(box, E, (i, place) => `<div class="row${i + 1 == S.at ? " at" : ""}"${i + 1 == S.at ? ' aria-current="true"' : ""} ${place} data-event="${i + 1}"><span>${i + 1}</span>
<span class="mono">${lives[lifeOf[i + 1]]?.ticket ?? ""}</span><span class="grow">${esc(eventText(i + 1))}</span></div>`, follow ? S.at - 1 : -1);
  }
  const changed = new Map((changes[S.at] || []).map(it => [it[0], it])), asked = $("find").value.toLowerCase();
  cells = [];
  for (let i = 0; i < store.length; i++) if (store[i].at[0] <= S.at && (!asked || nameOf(i).toLowerCase().includes(asked))) cells.push(i);
  const made = i => store[i].at[0] == S.at && S.at > 0, marked = cells.findIndex(i => changed.has(i) || made(i));
  rowsOf(box, cells.length, (at, place) => {
    const i = cells[at], it = changed.get(i), name = `${esc(nameOf(i))} <span class="muted">${esc(store[i].type)}</span>`;
    return `<div class="row${it || made(i) ? " at" : ""}${i == S.variable ? " on" : ""}" ${place} data-variable="${i}"><span>#${i}</span>
<span class="grow">${name}</span><span>${it ? `${valueHtml(it[1])} → ` : made(i) ? "new " : ""}<b>${valueHtml(valueAt(i, S.at))}</b></span></div>`;
  }, follow ? marked : -1);
}

function panel(follow) {
  const hasFocus = $("main").contains(document.activeElement);
  $("main").innerHTML = S.tab == "ticket" ? ticketHtml(S.life) : S.tab == "variable" ? variableHtml(S.variable) : eventHtml(S.at);
  if (hasFocus) $("main").focus({preventScroll: true});
  for (const it of document.querySelectorAll("[data-tab]")) it.setAttribute("aria-selected", it.dataset.tab == (S.isStore ? "store" : S.tab));
  for (const it of document.querySelectorAll("[data-low]")) it.setAttribute("aria-selected", it.dataset.low == S.low);
  $("main").setAttribute("aria-labelledby", "tab" + S.tab); $("below").setAttribute("aria-labelledby", "low" + S.low);
  for (const it of document.querySelectorAll("[data-by]")) it.setAttribute("aria-pressed", it.dataset.by == S.by);
  $("panel").classList.toggle("store", S.isStore);
  $("find").style.visibility = S.low == "store" ? "" : "hidden";
  $("main").querySelector(".at")?.scrollIntoView({block: "nearest"});
  $("at").value = S.at; $("at").setAttribute("aria-valuetext", said(S.at)); $("where").textContent = `${S.at.toLocaleString("en")} of ${E.toLocaleString("en")}`;
  below(follow);
}
