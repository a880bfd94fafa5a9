// ---- Words ---------------------------------------------------------------------------------------------------------

const esc = text => String(text).replace(/[&<>"]/g, it => ({"&": "&amp;", "<": "&lt;", ">": "&gt;", '"': "&quot;"}[it]));
const nameOf = variable => store[variable]?.name ?? "#" + variable;
const count = (n, word) => `${n.toLocaleString("en")} ${word}${n == 1 ? "" : "s"}`;

function valueText(value, first) {
  if (value === undefined) return "?";
  if (value === null) return "()";
  if (value === true || value === false) return value ? "True" : "False";
  if (typeof value != "object") return String(value);
  if (value.old === undefined && first == null) return "new" + value.new;
  const variable = value.old ?? first + value.new;
  return "#" + variable + (store[variable]?.name ? " " + store[variable].name : "");
}

// A verdict in a few words. After a finish its new variables have numbers from `first` on.
function verdictText(index, first) {
  const it = data.verdicts[index];
  if (it === undefined) return "";
  if (it === 0) return "blocks";
  if (it.length == 1) return "throws " + it[0];
  const said = it[0].slice(0, 6).map(([variable, value]) => `${nameOf(variable)}=${valueText(value, first)}`);
  if (it[0].length > 6) said.push(`${it[0].length - 6} more`);
  if (it[2] !== null || !said.length) said.push("returns " + valueText(it[2], first));
  return said.join(", ");
}

const changeText = ([variable, before, after]) => `${nameOf(variable)} ${valueText(before)} → ${valueText(after)}`;
const blockOf = life => data.blocks[life.block];
const oneLine = text => text.replace(/\s+/g, " ");
const titleOf = life => (labelOf(life) ? labelOf(life) + ": " : "") + oneLine(blockOf(life));

// How a ticket's life ends, or stands at the last event.
function outcome(life) {
  if (life.how == "cancelled") return "cancelled";
  if (life.how == "throws") return verdictText(argOf(life.end));
  return life.how == "finished" ? "finished: " + verdictText(argOf(life.end), firstNew[life.end]) : "waits, " + stateText(life, life.at.length - 1);
}

const stateText = (life, i) => STATES[life.state[i]] + (life.state[i] == CURRENT ? ": " + verdictText(life.verdict[i]) : "");

// A block with a line for each statement, as HTML.
const WORDS = new Set("do let if then else return readTVar writeTVar newTVar retry orElse throw catch True False".split(" "));
const numbers = new Map(); // of declared variables, by their names
function pretty(text) {
  let out = "", depth = 0, before = "";
  const line = () => "\n" + "  ".repeat(depth);
  for (const [word] of text.matchAll(/[A-Za-z][\w']*|\d+|<-|<=|==|&&|\|\||\S/g)) {
    if (word == "}") { depth = Math.max(0, depth - 1); out += line(); }
    else if (before == "{" || before == ";") out += line();
    else if (before && before != "(" && word != ")" && word != ";") out += " ";
    const shown = WORDS.has(word) ? `<b>${word}</b>` : numbers.has(word) ? variableLink(numbers.get(word)) : esc(word);
    out += shown;
    if (word == "{") depth++;
    before = word;
  }
  return `<pre>${out}</pre>`;
}

const link = (what, it, text) => `<a role="link" tabindex="0" data-${what}="${it}">${text}</a>`;
const eventLink = e => link("event", e, `event ${e}`);
const ticketLink = index => link("life", index, `ticket ${lives[index].ticket}`);
const variableLink = variable => link("variable", variable, esc(nameOf(variable)));
const valueHtml = value => `<span class="mono">${esc(valueText(value))}</span>`;
const changeHtml = ([variable, before, after]) => `${variableLink(variable)} ${valueHtml(before)} → ${valueHtml(after)}`;

// The first of some things as HTML, and how many more there are.
const some = (all, most, html) => all.slice(0, most).map(html).join(", ") + (all.length > most ? ` and ${all.length - most} more` : "");

function readsHtml(index, e) {
  if (index < 0) return '<span class="muted">what it read isn\'t known</span>';
  return "read " + (some(data.readSets[index], 40, it => `${variableLink(it)}=${valueHtml(valueAt(it, e))}`) || "nothing");
}

function whyHtml(life, i) {
  if (!life.why[i]) return "since before the first event";
  const e = life.why[i], unknown = life.reads[i] < 0 ? ' <span class="muted">(what of this it had read isn\'t known)</span>' : "";
  return `${ticketLink(lifeOf[e])} finished and changed ${some(causes(life, i), 12, changeHtml) || "what it had read"}${unknown}`;
}

function declarationText(e) {
  const [name, type, init] = data.declared[argOf(e)];
  return `${name} : ${type} = ${valueText(init, 0)}`;
}

// What an event is, in a line of text.
function eventText(e) {
  const life = lives[lifeOf[e]], kind = kindOf(e);
  if (kind == "d") return "declared: " + declarationText(e);
  if (kind == "s") return `submitted: ${oneLine(blockOf(life)).slice(0, 200)}`;
  if (kind == "i") return `evaluated: ${verdictText(argOf(e))}`;
  if (kind == "l") return data.labels[argOf(e)] ? `labelled: ${data.labels[argOf(e)]}` : "its label is taken away";
  if (kind == "c") return "cancelled";
  const made = madeStale[e] || [], tickets = some(made, 8, it => lives[it].ticket);
  return `finished: ${verdictText(argOf(e), firstNew[e])}` + (made.length ? `; makes ${tickets} stale` : "");
}

build();
store.forEach((it, i) => { if (it.name !== null) numbers.set(it.name, i); });
