// ---- The self test: NAME.html#selftest -----------------------------------------------------------------------------

function selftest() {
  const said = [], need = (what, is) => { if (!is) said.push(what); };
  const box = chart.getBoundingClientRect(), place = (x, y) => ({clientX: box.left + x, clientY: box.top + y, bubbles: true, cancelable: true});
  const send = (type, x, y) => chart.dispatchEvent(new PointerEvent(type, {...place(x, y), pointerId: 1}));
  const ink = () => {  // how many colours are drawn
    const pixels = chart.getContext("2d").getImageData(0, 0, chart.width, chart.height).data, found = new Set();
    for (let i = 0; i < pixels.length; i += 40) found.add(pixels[i] << 16 | pixels[i + 1] << 8 | pixels[i + 2]);
    return found.size;
  };
  chart.setPointerCapture = () => {};
  need("nothing is drawn", ink() > 4);
  const at = lives.findIndex((life, i) => yOf(i) !== null && life.start >= S.from), life = lives[at], y = yOf(at);
  send("pointermove", X(life.start) + 1, y);
  need("hovering shows no block", $("tip").style.display == "block" && $("tip").textContent.includes("Ticket " + life.ticket));
  send("pointerleave", 0, 0);
  need("leaving keeps the tip", $("tip").style.display == "none");
  const arrow = madeStale.findIndex((it, e) => it && e >= S.from && e <= S.to && yOf(lifeOf[e]) !== null);
  let arrowSays = "";
  if (arrow > 0) {
    const found = hitHtml({arrow, event: arrow}), it = lives[madeStale[arrow][0]], why = causes(it, lastUpTo(it.at, arrow));
    arrowSays = why.map(changeText).join(", ");
    need("an arrow doesn't say why", why.length > 0 && found.includes("→"));
  }
  $("at").value = E; $("at").dispatchEvent(new Event("input", {bubbles: true})); panel(true);
  need("the scrubber doesn't reach the last event", S.at == E && $("where").textContent.startsWith(E.toLocaleString("en")));
  const last = changes.length - 1;
  if (last > 0) {
    S.isStore = true; go(last); panel(true);
    need("the store marks no changed variable", $("below").querySelector(".row.at")?.textContent.includes(valueText(changes[last][0][2])));
    choose("variable", changes[last][0][0]); panel(true);
    need("nobody wrote the variable", /W/.test($("main").textContent));
  }
  const sums = store.slice(0, 1000).map((it, i) => `${nameOf(i)}=${valueText(valueAt(i, E))}`).join(" ");
  for (const name of ["client", "block", "ticket"]) { by(name); lanesKey = ""; draw(); need(`no lanes by ${name}`, L.lanes.length > 0 && ink() > 4); }
  deeds.all(); lanesKey = ""; draw(); const whole = timeOfDraw;
  need("not all lanes", S.by != "ticket" || L.lanes.length == lives.length);
  deeds.in(); need("zooming does nothing", S.to - S.from < E || E <= 4);
  let before = S.to - S.from;
  chart.dispatchEvent(new WheelEvent("wheel", {...place(L.width - 50, 90), deltaY: -100}));
  need("the wheel doesn't zoom", S.to - S.from < before || before <= 4);
  draw(); before = S.from;
  send("pointerdown", L.gutter + 40, L.height - 8); send("pointermove", L.gutter + 90, L.height - 8); send("pointerup", L.gutter + 90, L.height - 8);
  need("dragging doesn't move the window", S.from < before || before == 0);
  send("pointerdown", X(Math.ceil(S.from)), 5); send("pointerup", X(Math.ceil(S.from)), 5);
  need("the row of numbers doesn't go to an event", S.at == Math.max(0, Math.ceil(S.from)));
  S.text = "no such text in any block"; filter(); lanesKey = ""; draw(); need("the filter lets all through", L.lanes.length == 0);
  deeds.clear(); draw();
  document.dispatchEvent(new KeyboardEvent("keydown", {key: "Home", bubbles: true})); need("keys do nothing", S.at == 0);
  theme("dark"); draw(); need("no dark theme", ink() > 4);
  need(`the page is wider than the window: ${document.documentElement.scrollWidth}`, document.documentElement.scrollWidth <= innerWidth);
  const unknown = data.reads.filter((it, i) => it < 0 && data.kinds[i] == "i").length;
  return {said, shown: Math.round(timeToShow), whole: Math.round(whole), events: E, arrow: arrowSays, store: sums, unknown};
}

if (location.hash == "#selftest") {
  const out = document.createElement("pre");
  let found = {said: []};
  try { found = selftest(); } catch (error) { errors.push(String(error?.stack)); }
  out.id = "selftest"; out.hidden = true;
  out.textContent = JSON.stringify({...found, passed: !found.said.length && !errors.length, errors});
  document.body.append(out);
}
