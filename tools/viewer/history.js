"use strict";
const errors = [];
addEventListener("error", it => errors.push(String(it.message)));
addEventListener("unhandledrejection", it => errors.push(String(it.reason)));

// ---- The history ---------------------------------------------------------------------------------------------------

const data = JSON.parse(document.getElementById("data").textContent);
const E = data.kinds.length, NEW = 0, CURRENT = 1, STALE = 2, STATES = ["new", "current", "stale"];
const lifeOf = new Int32Array(E + 1), firstNew = new Int32Array(E + 1);
const lives = [];    // of each ticket: from its submission, or 0 if it waited before the first event, to its end, with its stretches
const store = data.vars.map(([name, type, init]) => ({name, type, at: [0], value: [init]}));
const changes = [];  // of a finish: [variable, before, after]
const madeStale = []; // of a finish: the lives
const declaredAt = []; // the events that declare a variable, which are of no life
const kindOf = e => data.kinds[e - 1], argOf = e => data.arg[e - 1], readsAt = e => data.reads[e - 1];

function build() {
  const waiting = new Map();
  for (const [ticket, block, state, verdict, reads, label] of data.waiting) {
    waiting.set(ticket, lives.length);
    const stretches = {at: [0], state: [state], verdict: [verdict], reads: [reads], why: [0]};
    lives.push({ticket, client: 0, block, start: 0, end: 0, how: "", named: [[0, label]], ...stretches});
  }
  for (let e = 1; e <= E; e++) {
    const kind = kindOf(e), ticket = data.ticket[e - 1];
    if (kind == "d") {
      const [name, type, init] = data.declared[argOf(e)];
      store.push({name, type, at: [e], value: [init]}); declaredAt.push(e); lifeOf[e] = -1;
      continue;
    }
    if (kind == "s") {
      waiting.set(ticket, lives.length);
      const stretches = {at: [e], state: [NEW], verdict: [-1], reads: [-1], why: [0]};
      lives.push({ticket, client: data.client[e - 1] || 0, block: argOf(e), start: e, end: 0, how: "", named: [], ...stretches});
    }
    const index = lifeOf[e] = waiting.get(ticket), life = lives[index];
    if (kind == "i") turn(life, e, CURRENT, argOf(e), readsAt(e), 0);
    if (kind == "f") finish(e, life, waiting);
    if (kind == "l") life.named.push([e, argOf(e)]);
    if (kind == "c") life.how = "cancelled";
    if (kind == "f" || kind == "c") { life.end = e; waiting.delete(ticket); }
  }
}

function turn(life, e, state, verdict, reads, why) {
  life.at.push(e); life.state.push(state); life.verdict.push(verdict); life.reads.push(reads); life.why.push(why);
}

function finish(e, life, waiting) {
  const verdict = data.verdicts[argOf(e)];
  firstNew[e] = store.length;
  life.how = verdict.length == 1 ? "throws" : "finished";
  if (verdict.length == 3) {
    for (const [type, value] of verdict[1]) store.push({name: null, type, at: [e], value: [settled(value, firstNew[e])]});
    for (const [variable, value] of verdict[0]) {
      const it = store[variable], after = settled(value, firstNew[e]), before = it?.value.at(-1);
      if (!it || variable >= firstNew[e] || data.format >= 3 && isSame(before, after)) continue;
      (changes[e] ||= []).push([variable, before, after]);
      it.at.push(e); it.value.push(after);
    }
  }
  for (const ticket of data.stale[e] || []) {
    const index = waiting.get(ticket), it = lives[index], last = it.at.length - 1;
    (madeStale[e] ||= []).push(index);
    turn(it, e, STALE, it.verdict[last], it.reads[last], e);
  }
}

const settled = (value, first) => value && value.new !== undefined ? {old: first + value.new} : value;
const isSame = (a, b) => a === b || a && b && a.old !== undefined && a.old === b.old;

// The index of the last number that is at most x in an ascending list; -1 if there is none.
function lastUpTo(list, x) {
  let low = 0, high = list.length;
  while (low < high) { const middle = (low + high) >> 1; if (list[middle] <= x) low = middle + 1; else high = middle; }
  return low - 1;
}

const valueAt = (variable, e) => { const it = store[variable], at = lastUpTo(it.at, e); return at < 0 ? undefined : it.value[at]; };
const stretchAt = (life, e) => e < life.start || life.end && e >= life.end ? -1 : lastUpTo(life.at, e);
const endOf = (life, i) => i + 1 < life.at.length ? life.at[i + 1] : life.end || E + 1;

// What a finish changed of what a stale block had read; all that it changed if that isn't known.
function causes(life, i) {
  const known = life.reads[i] < 0 ? null : data.readSets[life.reads[i]];
  return (changes[life.why[i]] || []).filter(it => !known || known.includes(it[0]));
}

// A block's label after its last event.
const labelOf = life => life.named.length ? data.labels[life.named.at(-1)[1]] : "";

const eventsOf = life => [...life.at, ...life.named.map(it => it[0]), life.end].filter(e => e).sort((a, b) => a - b);

// The events that read or write a variable: [event, "R" or "W"].
const touchMemo = new Map();
function touching(variable) {
  if (!touchMemo.has(variable)) {
    const read = data.readSets.map(it => it.includes(variable)), found = [];
    const written = data.verdicts.map(it => it.length == 3 && it[0].some(w => w[0] == variable));
    for (let e = 1; e <= E; e++) {
      if (kindOf(e) == "i" && read[readsAt(e)]) found.push([e, "R"]);
      if (kindOf(e) == "f" && written[argOf(e)] || store[variable].at[0] == e) found.push([e, "W"]);
    }
    if (touchMemo.size > 8) touchMemo.clear();
    touchMemo.set(variable, found);
  }
  return touchMemo.get(variable);
}
