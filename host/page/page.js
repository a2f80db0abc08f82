"use strict";
const $ = id => document.getElementById(id);
const COLOURS = ["#2f7fd1", "#d1662f", "#2c8a4b", "#9a4fc4", "#b8901a", "#c23b6b", "#3aa6a6", "#7a7f86"];
const VIEWS = {plant: "Plant", values: "Variables", charts: "Charts", program: "Program", log: "Log"};
const STATES = {running: "Running", held: "Held", halted: "Halted by a fault", trouble: "Doesn't run"};
let socket, token = "", hello = null, status = {}, values = new Map(), asked = [], view = "plant";
let chosen = [], past = [], text = [], sheet = null, typing = 0, fading = 0;
function build(made, props = {}, ...parts) {
  for (const [key, value] of Object.entries(props))
    made instanceof HTMLElement && key in made ? made[key] = value : made.setAttribute(key, value);
  made.append(...parts);
  return made;
}
const el = (tag, ...rest) => build(document.createElement(tag), ...rest);
const svg = (tag, ...rest) => build(document.createElementNS("http://www.w3.org/2000/svg", tag), ...rest);
const cells = parts => parts.map(part => el("td", {}, part));
const plain = name => name.replaceAll("_", " "), short = path => plain(path.slice(path.indexOf(".") + 1)), whole = Math.floor;
const seconds = ms => ms < 60000 ? `${(ms / 1000).toFixed(1)} s` : `${whole(ms / 60000)} min ${whole(ms / 1000 % 60)} s`;
const time = ms => `${whole(ms / 3600000)}:${new Date(ms).toISOString().slice(14, 19)}`;
const human = value => /^T#-?\d+ms$/.test(value) ? seconds(Number(value.slice(2, -2))) : value;
const numeric = value => ({TRUE: 1, FALSE: 0})[value] ?? Number(value.replace(/^T#|ms$/g, "").replace(/^16#/, "0x"));
const valueOf = path => values.get(path) || ["", ""];
function fill(box, key, make) { // anew, where something else is to be shown
  if (box.key === String(key)) return;
  box.key = String(key);
  box.replaceChildren(...make());
}
function live(box, paths, refresh) { // shows values that come and go
  box.classList.add("live");
  return Object.assign(box, {paths, refresh});
}

// the connection
function open() {
  asked = [];
  socket = new WebSocket(location.origin.replace("http", "ws") + "/live", [token]);
  socket.onmessage = event => heard(JSON.parse(event.data));
  socket.onclose = () => {
    build($("state"), {textContent: "no connection", className: "trouble"});
    if (hello) setTimeout(open, 2000);
  };
}
function heard(news) {
  if (news.status) {
    const {version} = status;
    status = news.status;
    for (const [path, value] of Object.entries(news.values)) values.set(path, value);
    if (version !== status.version) loadProgram();
    tell();
  } else if (news.hello) {
    hello = news;
    sessionStorage.setItem("token", token);
    document.body.className = hello.acts ? "" : "looks";
    begin();
  } else if (news.refused) {
    hello = null;
    sessionStorage.removeItem("token");
    document.body.className = "locked";
    $("login-answer").textContent = news.refused;
  } else asked.shift()(news);
}
function ask(line) {
  if (socket.readyState !== WebSocket.OPEN) return Promise.resolve({reply: "there is no connection", bad: true, rows: []});
  socket.send(line);
  return new Promise(done => asked.push(done));
}
async function act(line) {
  const answer = await ask(line), others = (answer.rows || []).map(row => row.join(" "));
  const textContent = [`${line}: ${answer.reply}`, answer.why, ...others].filter(words => words).join(". ");
  build($("answer"), {textContent, className: answer.bad || others.length ? "shown refused" : "shown"});
  clearTimeout(fading);
  fading = setTimeout(() => $("answer").classList.remove("shown"), answer.bad ? 7000 : 3000);
  if (view === "log") showLog();
  return answer;
}

// what stands on every view
function begin() {
  document.title = $("plant").textContent = hello.plant;
  $("about").textContent = hello.about;
  values.clear();
  past = hello.past.map(([moment, texts]) => [moment, Object.fromEntries(hello.trend.map((path, i) => [path, texts[i]]))]);
  for (const kind of ["inputs", "outputs"]) $(kind).replaceChildren(...hello[kind].map(card));
  choose(chosen.length ? chosen : hello.trend);
  show(view);
}
function tell() {
  build($("state"), {textContent: STATES[status.state], className: status.state});
  $("clock").textContent = time(status.moment);
  $("forces").textContent = status.forces ? `${status.forces} forced` : "";
  $("hold").textContent = status.state === "held" ? "Go on" : "Hold";
  build($("undo"), {disabled: !status.undos, textContent: status.undo ? `Undo: ${status.undo.slice(0, 40)}` : "Undo"});
  if (past.at(-1)?.[0] !== status.moment)
    past.push([status.moment, Object.fromEntries(chosen.map(path => [path, valueOf(path)[0]]))]);
  if (past.length > 20000) past.splice(0, 5000);
  tellBanner();
  tellFigures();
  document.querySelectorAll(".live").forEach(item => item.refresh());
}
function tellFigures() {
  const {journal} = status, megabytes = (journal.bytes / 1e6).toFixed(1);
  const reach = journal.reaches ? `reaches back to the load or a reset` : "doesn't reach back: no replay can begin";
  $("figures").replaceChildren(...[
    [`cycle ${status.period} ms, work ${status.work_mean} ms, at worst ${status.work_worst}`],
    [`late ${status.lateness_mean} ms, at worst ${status.lateness_worst}, ${status.skipped} places without a scan`],
    [`overruns ${status.overruns} of ${status.cycles} cycles`, status.overruns],
    [journal.trouble || `journal ${megabytes} MB, ${reach}`, journal.trouble || !journal.reaches],
    ...status.devices.filter(device => !device.good).map(device => [`${device.name}: ${device.trouble}`, true]),
  ].map(([words, bad]) => el("span", {className: bad ? "bad" : ""}, words)));
}
function tellBanner() {
  const [, unit, , at] = status.fault.split(" "), row = text[at - 1] || "", safe = "Outputs have their values for a fault";
  const jump = () => { show("program"); $("program").children[at - 1]?.scrollIntoView({block: "center"}); };
  $("banner").className = status.state;
  fill($("banner"), [status.state, status.fault, status.trouble, row], () => ({
    running: () => [],
    held: () => ["Scans are held. Outputs stay as they are, and what is done now can be undone."],
    trouble: () => [`The program doesn't run: ${status.trouble}. ${safe}.`],
    halted: () => [`${status.why.replaceAll("`", "")} The program is halted in ${unit}, line ${at}. ${safe}, until a reset. `,
      el("button", {onclick: jump}, "Show the line"), el("code", {}, row.trim())],
  })[status.state]());
  [...$("program").children].forEach((row, i) => row.className = i + 1 === Number(at) ? "fault" : "");
}
function show(name) {
  view = name;
  for (const tab of document.querySelectorAll("nav button")) {
    $(`view-${tab.name}`).hidden = tab.name !== name;
    tab.setAttribute("aria-selected", tab.name === name);
  }
  ({values: search, log: showLog}[name] ?? watch)();
}
function watch() {
  const shown = [...document.querySelectorAll(`#view-${view} .live`)].flatMap(item => item.paths);
  ask(["watch", ...new Set([...chosen, ...shown, ...sheet ? [sheet] : []])].slice(0, 500).join(" "));
}

// a variable: its value and what is to be said of it, in a card, in a row of a table, and on its sheet
function fillValue(box, path, tags, unit = "") {
  const [now, forced] = valueOf(path), driven = status.driven[path], shown = driven ?? now, on = shown === "TRUE";
  const input = hello.inputs.find(point => point.path === path), lamp = on || shown === "FALSE";
  const notes = [[forced, "forced", "forced"], [status.good[path] === false, "bad", "bad: last value"],
    [shown !== now && status.state !== "running", "bad", `for the fault; program: ${now}`],
    [input && !input.device, "", "set by hand"]].filter(([is]) => is);
  box.className = `value${lamp ? " lamp" : ""}${on ? " on" : ""}`;
  fill(box, shown, () => [human(shown), " ", el("small", {}, unit)]);
  fill(tags, notes, () => notes.map(([, kind, words]) => el("span", {className: `tag ${kind}`}, words)));
}
function card(point) {
  const value = el("span"), tags = el("span", {className: "tags"}), {path, low, high} = point;
  const gauge = low === null || high === null ? [] : [el("progress", {max: high - low})];
  const box = el("button", {className: "card", title: path, onclick: () => openSheet(path)},
    el("span", {className: "title"}, point.title || short(path)), value, ...gauge, tags);
  return live(box, [path], () => {
    fillValue(value, path, tags, point.unit);
    for (const bar of gauge) bar.value = Math.max(0, numeric(valueOf(path)[0]) - low);
  });
}
async function search() {
  const only = $("only-forced").checked ? "--forced" : $("hidden").checked ? "" : "--plain";
  const found = await ask(`list ${only} ${$("search").value}`);
  $("found").textContent = found.reply;
  $("rows").replaceChildren(...found.rows.map(([path, type, ...now]) => {
    const value = el("span"), tags = el("span");
    values.set(path, now);
    const shown = el("td", {}, value, " ", tags);
    const row = el("tr", {tabIndex: 0, onclick: () => openSheet(path)}, ...cells([path, type]), shown);
    return live(row, [path], () => fillValue(value, path, tags));
  }));
  watch();
}
function openSheet(path) {
  sheet = path;
  watch();
  $("sheet-path").textContent = path;
  $("sheet-input").value = "";
  $("sheet-note").hidden = !hello.inputs.some(point => point.path === path && point.device);
  $("sheet-trend").textContent = chosen.includes(path) ? "Plot it no more" : "Plot it";
  live($("sheet-value"), [], () => fillValue($("sheet-now"), sheet, $("sheet-tags"))).refresh();
  $("sheet").showModal();
}
function closeSheet() {
  const verb = $("sheet").returnValue, path = sheet, now = valueOf(path)[0], given = $("sheet-input").value.trim();
  const other = {TRUE: "FALSE", FALSE: "TRUE"}[now] || now, others = chosen.filter(item => item !== path);
  if (verb === "trend") choose(others.length < chosen.length ? others : [...chosen, path].slice(-COLOURS.length));
  else if (verb === "release") act(`release ${path}`);
  else if (verb) act(`${verb} ${path} ${given || (verb === "write" ? other : now)}`);
}

// trends: one lane for each variable
function choose(paths) {
  chosen = paths;
  $("plot").replaceChildren(...chosen.map(lane));
  watch();
}
function lane(path, i) {
  const curve = svg("path", {stroke: COLOURS[i % COLOURS.length]}), title = el("span"), top = el("small"), bottom = el("small");
  const frame = svg("svg", {viewBox: "0 0 1000 100", preserveAspectRatio: "none"}, curve);
  const box = el("button", {className: "lane", title: path, onclick: () => openSheet(path)}, title, frame, top, bottom);
  return live(box, [path], () => {
    const end = status.moment, span = $("span").value * 1000;
    const all = past.filter(([moment, texts]) => moment >= end - span && texts[path]), step = Math.ceil(all.length / 600);
    const list = all.filter((_, k) => k % step === 0 || k === all.length - 1);
    const numbers = list.map(([, texts]) => numeric(texts[path])), bit = /^(TRUE|FALSE)$/.test(valueOf(path)[0]);
    const [low, high] = bit ? [0, 1] : [Math.min(...numbers), Math.max(...numbers)];
    const places = list.map(([moment], k) =>
      [1000 * (1 - (end - moment) / span), 95 - 90 * (numbers[k] - low) / (high - low || 1)]);
    build(curve, {d: places.map(([x, y], k) => `${k ? bit ? `H${x} V` : `L${x} ` : `M${x} `}${y}`).join("")});
    box.classList.toggle("bit", bit);
    title.textContent = `${short(path)}: ${human(valueOf(path)[0])}`;
    [top.textContent, bottom.textContent] = bit || !list.length ? ["", ""] : [high, low];
  });
}

// the program and its charts: the text says which steps and transitions there are, and the leaves which of them are active
async function loadProgram() {
  const program = await ask("program"), charts = Object.entries(program.charts);
  text = program.text.replace(/\n$/, "").split("\n");
  if (!$("text").value) edit();
  $("program").replaceChildren(...text.map(row => el("li", {}, row)));
  $("view-charts").replaceChildren(...charts.flatMap(([owner, steps]) => [el("h2", {}, owner), drawChart(owner, steps)]),
    charts.length ? "" : "This program has no charts.");
  show(view);
}
function waysOf(steps) {
  const source = text.join("\n").replace(/\(\*[^]*?\*\)/g, ""), wanted = steps.map(step => step.toUpperCase());
  const places = names => names.match(/\w+/g).map(name => wanted.indexOf(name.toUpperCase()));
  for (const [, , body] of source.matchAll(/\b(PROGRAM|FUNCTION_BLOCK)\b([^]*?)\bEND_\1\b/gi)) {
    const own = [...body.matchAll(/\b(INITIAL_)?STEP\s+(\w+)\s*:/gi)];
    if (own.map(step => step[2]).join().toUpperCase() !== wanted.join()) continue;
    const found = body.matchAll(/\bTRANSITION\b[^;]*?\bFROM\b([\w(),\s]+?)\bTO\b([\w(),\s]+):=([^]*?);\s*END_TRANSITION\b/gi);
    const ways = [...found].map(([, from, to, when]) => ({from: places(from), to: places(to), when: when.trim()}));
    return {first: own.findIndex(step => step[1]), ways};
  }
  return {first: 0, ways: []};
}
function drawChart(owner, steps) {
  const {first, ways} = waysOf(steps), names = places => places.map(i => plain(steps[i])).join(" and ");
  const layer = steps.map((_, i) => i === first ? 0 : Infinity), below = places => Math.max(...places.map(i => layer[i]));
  for (const round of steps)
    for (const {from, to} of ways)
      for (const i of to) layer[i] = Math.min(layer[i], below(from) + 1);
  const boxes = steps.map((step, i) => {
    const box = el("div", {className: i === first ? "step first" : "step"}), own = `${owner}.${step}`;
    return live(box, [`${own}.X`, `${own}.T`], () => {
      const active = valueOf(`${own}.X`)[0] === "TRUE", stay = active ? human(valueOf(`${own}.T`)[0]) : "";
      box.classList.toggle("active", active);
      fill(box, stay, () => [plain(step), el("small", {}, stay)]);
    });
  });
  const bars = ways.map(({from, to, when}) => el("div", {className: "way"},
    el("small", {}, layer.filter(other => other === layer[from[0]]).length > 1 ? `${names(from)}: ` : ""), when,
    el("small", {}, ` \u2192 ${names(to)}`)));
  const rows = [...new Set(layer)].sort((one, other) => one - other).flatMap(row => [
    boxes.filter((_, i) => layer[i] === row), bars.filter((_, k) => below(ways[k].from) === row)]);
  return el("div", {className: "chart"}, ...rows.map(row => el("div", {}, ...row)));
}

// a change, and who did what
async function check() {
  $("do").disabled = true;
  $("preview").textContent = "Checking\u2026";
  socket.send(new TextEncoder().encode($("text").value).slice(0, 2 ** 20 + 1)); // more is refused
  const found = await ask(`preview ${$("renames").value}`), counts = [...found.reply.matchAll(/([a-z]+) (\d+)/g)];
  const boxes = counts.map(([, kind, count]) => el("span", {className: "box"}, el("b", {}, count), ` ${kind}`));
  $("preview").className = found.bad ? "refused" : "";
  $("preview").replaceChildren(...found.bad ? [found.reply] : boxes, el("pre", {}, found.said || ""));
  $("do").disabled = found.bad;
}
async function change() {
  $("do").disabled = true;
  if ((await act("change")).bad) return;
  $("editor").open = false;
  show("log");
}
function edit() {
  $("text").value = text.join("\n");
  $("renames").value = $("preview").textContent = "";
  $("do").disabled = true;
}
async function showLog() {
  const {rows} = await ask("log");
  fill($("log"), JSON.stringify(rows), () => rows.reverse().map(([number, ...words]) => {
    const button = el("button", {onclick: () => act(`takeback ${number}`), className: "acts"}, "Take back");
    const reply = words.at(-1), kind = /^(undone|taken)/.test(reply) ? "undone" : reply.startsWith("refused") ? "refused" : "";
    return el("tr", {className: kind}, ...cells([...words, number ? button : ""]));
  }));
}
function key(event) {
  const busy = event.target.closest("input, textarea, select, dialog");
  if (busy || event.ctrlKey || event.altKey || event.metaKey || !hello) return;
  const rows = [...$("rows").children], rank = rows.indexOf(document.activeElement);
  const step = {ArrowDown: 1, ArrowUp: -1}[event.key], name = Object.keys(VIEWS)[event.key - 1];
  if (name) show(name);
  else if (event.key === "/") {
    show("values");
    $("search").focus();
    event.preventDefault();
  } else if (event.key === "Enter" && rank >= 0) openSheet(rows[rank].paths[0]);
  else if (step && view === "values" && rows.length) {
    rows[Math.max(0, Math.min(rows.length - 1, rank + step))].focus();
    event.preventDefault();
  }
}
function listen() {
  document.querySelector("nav").append(...Object.entries(VIEWS).map(([name, title], i) =>
    el("button", {name, role: "tab", title: i + 1, onclick: () => show(name)}, title)));
  $("login").onsubmit = event => { event.preventDefault(); token = $("token").value; $("token").value = ""; open(); };
  $("undo").onclick = () => act("undo");
  $("hold").onclick = () => act(status.state === "held" ? "go" : "hold");
  $("reset").onclick = () => confirm("Give all variables that aren't forced their initial values?") && act("reset");
  $("forces").onclick = () => { $("only-forced").checked = true; show("values"); };
  $("search").oninput = () => { clearTimeout(typing); typing = setTimeout(search, 150); };
  $("only-forced").onchange = $("hidden").onchange = search;
  $("sheet").onclose = closeSheet;
  $("editor").ontoggle = edit;
  $("check").onclick = check;
  $("do").onclick = change;
  $("text").oninput = $("renames").oninput = () => $("do").disabled = true;
  document.onkeydown = key;
  token = location.hash.slice(1) || sessionStorage.getItem("token") || "";
  history.replaceState(null, "", location.pathname);
  if (token) open();
}
addEventListener("DOMContentLoaded", listen);
