"use strict";
// The page of tools/picture: it shows one crash of the moment that is picked. D is what picture_page.py put down. Which
// choices were tried isn't in it: they are made here as picture_choices.py makes them, in the same order.

const byId = (id) => document.getElementById(id);
const D = JSON.parse(byId("data").textContent);
const END = D.events.length;
const [GONE, TORN, ARRIVED] = [0, 1, 2];
const WAYS = ["lost", "torn", "arrived"];
const MOST_ALONE = 25;
const SIGNS = "0123456789ABCDEFGHIJKLMNOPQRSTUVWXYZabcdefghijklmnopqrstuvwxyz-_";

// The writes, and which crashes were tried

function pendingWrites(moment) {
  const places = new Map();
  let waiting = [];
  for (let place = 0; place < moment; place++) {
    const event = D.events[place];
    if (event.kind == "w") places.set(event.ticket, place);
    if (event.kind != "d") {
      waiting.push(place);
      continue;
    }
    const noticed = places.get(event.ticket);
    waiting = waiting.filter((one) => one > noticed || D.events[one].block != D.events[noticed].block);
  }
  return waiting;
}

function draws(seed) {
  return () => {
    seed = (seed + 0x6d2b79f5) | 0;
    let mixed = Math.imul(seed ^ (seed >>> 15), seed | 1);
    mixed = (mixed + Math.imul(mixed ^ (mixed >>> 7), mixed | 61)) ^ mixed;
    return (mixed ^ (mixed >>> 14)) >>> 0;
  };
}

const waysOf = (event) => (event.kind == "f" ? [GONE, ARRIVED] : [GONE, TORN, ARRIVED]);

function allChoices(ways) {
  return ways.reduce((found, way) => way.flatMap((one) => found.map((choice) => [...choice, one])), [[]]);
}

function chosen(ways) {
  const count = ways.length;
  const rows = (length, way) => Array(length).fill(way);
  const found = [rows(count, GONE), rows(count, ARRIVED)];
  const parts = Math.min(count, MOST_ALONE);
  for (let part = 0; part < parts; part++) {
    const place = Math.floor((part * count) / parts);
    const behind = count - place - 1;
    const torn = ways[place].includes(TORN) ? TORN : GONE;
    for (const way of [GONE, torn]) found.push([...rows(place, ARRIVED), way, ...rows(behind, ARRIVED)]);
    found.push([...rows(place, ARRIVED), ...rows(1 + behind, GONE)]);
    found.push([...rows(place + 1, GONE), ...rows(behind, ARRIVED)]);
  }
  return found;
}

function someChoices(moment, ways) {
  const found = chosen(ways);
  const next = draws((Math.imul(D.plan.seed, 2654435761) + Math.imul(moment, 40503)) >>> 0);
  while (found.length < D.plan.sample) {
    const share = [64, 128, 192, 235][next() % 4];
    const choice = [];
    for (const way of ways) {
      const [arrives, tears] = [next() & 255, next() & 7];
      choice.push(arrives < share ? ARRIVED : tears < 3 && way.includes(TORN) ? TORN : GONE);
    }
    found.push(choice);
  }
  return found;
}

// A moment with its pending writes, its choices, and the number of the outcome of each
const moments = new Map();

function momentOf(number) {
  if (!moments.has(number)) {
    const pending = pendingWrites(number);
    const ways = pending.map((place) => waysOf(D.events[place]));
    const choices = ways.length <= D.plan.all ? allChoices(ways) : someChoices(number, ways);
    const digits = D.tried[number].match(new RegExp(`.{${D.digits}}`, "g"));
    const outcomes = digits.map((text) => [...text].reduce((sum, sign) => sum * 64 + SIGNS.indexOf(sign), 0));
    const places = new Map();
    choices.forEach((choice, place) => places.has(choice.join("")) || places.set(choice.join(""), place));
    moments.set(number, { number, pending, ways, choices, outcomes, places });
  }
  return moments.get(number);
}

const isOutside = (number, point) => point < D.floor[number] || point > D.top[number];

// Whether a choice left what it mustn't: a point outside the band, or another than the last one though all arrived
function isWrong(moment, place) {
  const isShort = D.short.includes(moment.number) && moment.choices[place].every((way) => way == ARRIVED);
  return isShort || isOutside(moment.number, D.points[moment.outcomes[place]]);
}

// The worst choice: the oldest point, or one that mustn't be left, by the fewest writes that are lost or torn
function worstOf(moment) {
  let worst = 0;
  let least = null;
  moment.choices.forEach((choice, place) => {
    const missing = choice.filter((way) => way != ARRIVED).length;
    const torn = choice.filter((way) => way == TORN).length;
    const rank = [isWrong(moment, place) ? 0 : 1, D.points[moment.outcomes[place]], missing, torn];
    const at = least ? rank.findIndex((one, part) => one != least[part]) : 0;
    if (!least || (at >= 0 && rank[at] < least[at])) [worst, least] = [place, rank];
  });
  return worst;
}

// The choice that differs least from another one, of those that pass a test; -1 where none does
function nearest(moment, wanted, passes = () => true) {
  let best = -1;
  let least = Infinity;
  moment.choices.forEach((choice, place) => {
    if (!passes(choice, place)) return;
    const differs = choice.reduce((sum, way, at) => sum + (way == wanted[at] ? 0 : 1 + Math.abs(way - wanted[at]) / 9), 0);
    if (differs < least) [best, least] = [place, differs];
  });
  return best;
}

// Words

const count = (number) => number.toLocaleString("en");
const escaped = (text) => text.replace(/[&<>"]/g, (sign) => ({ "&": "&amp;", "<": "&lt;", ">": "&gt;", '"': "&quot;" })[sign]);
const shortened = (text) => (text.length > 40 ? text.slice(0, 39) + "…" : text);
const code = (text) => `<code>${escaped(shortened(text))}</code>`;
const nameOf = (event) => (event.kind == "f" ? "f" : "") + event.ticket;
const pointName = (point) => (point < 0 ? "no sync point" : `point ${point}`);

// The options of `replay` that say a choice
function optionsOf(moment, choice) {
  const events = moment.pending.map((place) => D.events[place]);
  const stand = events.filter((_, at) => choice[at] == ARRIVED);
  const tear = events.filter((_, at) => choice[at] == TORN).map((event) => `${nameOf(event)}:${event.cut}`);
  const isAll = stand.length > 0 && events.every((event, at) => (choice[at] == GONE) == (event.kind == "f"));
  const options = { at: `${moment.number}` };
  if (stand.length) options.stand = isAll ? "all" : stand.map(nameOf).join(",");
  if (tear.length) options.tear = tear.join(",");
  return options;
}

// The choice that options of `replay` say
function choiceOf(moment, options) {
  const names = (text) => (text || "none").split(",");
  const stand = names(options.stand);
  const tear = names(options.tear).map((text) => text.split(":")[0]);
  return moment.pending.map((place) => {
    const event = D.events[place];
    if (tear.includes(nameOf(event))) return TORN;
    return stand.includes(nameOf(event)) || (stand[0] == "all" && event.kind == "w") ? ARRIVED : GONE;
  });
}

function whereIs(number) {
  const within = D.commands.find((one) => one.begins < number && number < one.mark);
  if (within) return `inside ${code(within.text)}, ${number - within.begins} of its ${within.mark - within.begins} events done`;
  if (number < D.mount) return number ? "inside the mount" : "before the mount";
  const before = D.commands.filter((one) => one.mark == number).pop();
  return before ? `after ${code(before.text)}, answered ${code(before.reply)}` : "after the mount";
}

function whyBounds(number) {
  const [floor, top] = [D.floor[number], D.top[number]];
  const promise = D.commands.find((one) => one.mark <= number && one.promises == floor);
  const begin = D.commands.find((one) => one.makes == top);
  const may = floor == top ? `<b>point ${floor}</b> alone` : `<b>points ${floor} to ${top}</b>`;
  const since = promise && `point ${floor} is promised since moment ${promise.mark}`;
  const low = floor && since ? since : "no point after point 0 is promised";
  const high = top > floor && begin ? `, and point ${top} has begun at moment ${begin.begins}` : "";
  return `A crash now may leave ${may}: ${low}${high}.`;
}

// Bytes as text where they are such, and long stretches of one byte by their number
function bytesOf(hex) {
  const parts = (hex.match(/(..)\1{7,}|(?:(?!(..)\2{7}).{2})+/g) || []).map((part) => {
    const values = part.match(/../g).map((two) => parseInt(two, 16));
    const isText = values.every((value) => value > 31 && value < 127);
    const text = isText ? `“${String.fromCharCode(...values)}”` : part;
    if (values.length < 8 || values.some((value) => value != values[0])) return text;
    return `${isText ? `“${String.fromCharCode(values[0])}”` : part.slice(0, 2)} × ${count(values.length)}`;
  });
  return parts.length > 12 ? `${parts.slice(0, 12).join(", ")}, …` : parts.join(", ");
}

// What is shown

const shown = { moment: momentOf(0), place: 0, moved: new Set() };
let later = 0;

const showsChoice = () => shown.moment.choices[shown.place];
const showsOutcome = () => shown.moment.outcomes[shown.place];
const showsPoint = () => D.points[showsOutcome()];

function show() {
  showMoment();
  showThree();
  showPoints();
  showWrites();
  showVerdict();
  showTree();
  const words = Object.entries(optionsOf(shown.moment, showsChoice()));
  byId("words").textContent = `optfs replay ${words.map(([name, text]) => `--${name} ${text}`).join(" ")} < ${D.name}`;
  byId("printed").textContent = D.outcomes[showsOutcome()].map((line) => D.lines[line] + "\n").join("");
  // The address follows a little later, since browsers refuse to have it changed too often.
  clearTimeout(later);
  later = setTimeout(() => history.replaceState(null, "", "#" + words.map((word) => word.join("=")).join("&")), 250);
  scrollToMoment();
}

function showMoment() {
  const { number, pending } = shown.moment;
  byId("moment").textContent = `Moment ${number} of ${END}`;
  byId("where").innerHTML = whereIs(number);
  byId("why").innerHTML = whyBounds(number);
  const now = D.commands.filter((one) => one.mark == number || (one.begins < number && number < one.mark));
  byId("here").hidden = !now.length;
  byId("here").firstElementChild.textContent = `${now.length} command${now.length == 1 ? "" : "s"} at this moment`;
  const reply = (one) => (one.mark > number ? "waits for its reply" : `<code>${escaped(one.reply)}</code>`);
  const rows = now.map((one) => `<li><code>${escaped(one.text)}</code> <span class="soft">${reply(one)}</span></li>`);
  byId("here").lastElementChild.innerHTML = rows.join("");
  byId("cursor").setAttribute("x", `${(number / (END + 1)) * 100}%`);
  byId("ring").setAttribute("x", `${((number + 0.5) / (END + 1)) * 100}%`);
  const row = D.chart.points + (D.last - showsPoint() + 0.5) * D.chart.row;
  byId("ring").firstElementChild.setAttribute("cy", showsPoint() < 0 ? D.chart.noTree : row);
  document.querySelectorAll(".box.on").forEach((box) => box.classList.remove("on"));
  pending.forEach((place) => byId(`e${place}`).classList.add("on"));
  for (const end of ["x1", "x2"]) byId("ocur").setAttribute(end, number + 0.5);
}

// Three crashes for those who are new to this: nothing arrived, all arrived, the worst
function showThree() {
  const { moment } = shown;
  const of = (way) => moment.places.get(way.repeat(moment.pending.length));
  const three = [["Nothing arrived", of("0")], ["All arrived", of("2")], ["The worst", worstOf(moment)]];
  byId("three").hidden = !moment.pending.length;
  const buttons = three.map(([name, place], at) => {
    const missing = moment.choices[place].filter((way) => way != ARRIVED).length;
    const why = missing ? `, for want of ${missing} of ${moment.pending.length} writes` : ", though all arrived";
    const left = `leaves ${pointName(D.points[moment.outcomes[place]])}${at < 2 ? "" : why}`;
    const wrong = isWrong(moment, place) ? ' <span class="wrong">✕</span>' : "";
    const isShown = place == shown.place;
    return `<button data-place="${place}" aria-pressed="${isShown}"><b>${name}</b><span>${left}</span>${wrong}</button>`;
  });
  byId("three").innerHTML = buttons.join("");
}

// How many choices left each point
function showPoints() {
  const { moment } = shown;
  const groups = new Map();
  moment.outcomes.forEach((outcome, place) => {
    const key = `${D.points[outcome]} ${isWrong(moment, place)}`;
    if (!groups.has(key)) groups.set(key, { point: D.points[outcome], place, wrong: isWrong(moment, place), count: 0 });
    groups.get(key).count++;
  });
  const most = Math.max(...[...groups.values()].map((group) => group.count));
  const rows = [...groups.values()].sort((one, other) => other.point - one.point).map((group) => {
    const isShown = group.point == showsPoint() && group.wrong == isWrong(moment, shown.place);
    const button = `<button data-place="${group.place}" aria-pressed="${isShown}">${pointName(group.point)}</button>`;
    const note = group.wrong ? `<span class="wrong">${count(group.count)} ✕</span>` : `<span>${count(group.count)}</span>`;
    return `${button}<i style="width:${(group.count / most) * 100}%"></i>${note}`;
  });
  byId("points").innerHTML = rows.join("");
  const all = moment.choices.length;
  const some = `${count(all)} of the choices were tried, since more than ${D.plan.all} writes are pending:`;
  const every = `All ${count(all)} choices of lost, torn and arrived were tried:`;
  const pending = moment.pending.length;
  byId("tried").textContent = !pending ? "One crash is possible:" : pending > D.plan.all ? some : every;
}

function showWrites() {
  const { moment, moved } = shown;
  const number = moment.pending.length;
  byId("count").textContent = number ? `${number} write${number == 1 ? " is" : "s are"} pending` : "No write is pending";
  byId("far").hidden = number <= D.plan.all;
  byId("writes").innerHTML = moment.pending.map((place, at) => {
    const event = D.events[place];
    const id = event.kind == "f" ? `lost write ${event.ticket}` : `ticket ${event.ticket}`;
    const torn = showsChoice()[at] == TORN ? ` · only its first ${event.cut} bytes` : "";
    const about = `${escaped(event.text)}<br><span class="soft">${id} · block ${event.block}${torn}</span>`;
    const letter = `<span class="letter">${event.kind == "f" ? "×" : event.letter}</span>`;
    const group = `<span class="switch" role="group" aria-label="${id}">${switchOf(moment, at)}</span>`;
    return `<div class="write${moved.has(at) ? " moved" : ""}">${letter}<span>${about}</span>${group}</div>`;
  }).join("");
}

function switchOf(moment, at) {
  return WAYS.map((name, way) => {
    if (!moment.ways[at].includes(way)) return `<button disabled>${name}</button>`;
    const wanted = showsChoice().with(at, way).join("");
    const far = moment.places.has(wanted) ? "" : ' class="far" title="not tried: shows the nearest crash that was"';
    return `<button data-at="${at}" data-way="${way}" aria-pressed="${showsChoice()[at] == way}"${far}>${name}</button>`;
  }).join("");
}

function verdictOf(moment, point) {
  const top = D.top[moment.number];
  if (point < 0) {
    const first = D.lines[D.outcomes[showsOutcome()][0]];
    return first.startsWith("error") ? `✕ No tree is left: ${first}.` : "✕ No sync point has the tree that is left.";
  }
  if (isOutside(moment.number, point)) return `✕ Point ${point} is left, which lies outside the band.`;
  const isntLast = "it isn't the last one of each reply at this moment";
  if (isWrong(moment, shown.place)) return `✕ All arrived, and point ${point} is left: ${isntLast}.`;
  if (point == top) return `Point ${point} is left: the newest that has begun.`;
  const later = top - point == 1 ? `point ${top}` : `points ${point + 1} to ${top}`;
  return `Point ${point} is left, whole, and nothing of ${later}.`;
}

function showVerdict() {
  byId("verdict").textContent = verdictOf(shown.moment, showsPoint());
  byId("verdict").className = isWrong(shown.moment, shown.place) ? "verdict wrong" : "verdict";
}

// The paths of a tree by lines of a listing
function pathsOf(lines) {
  const rows = lines.map((line) => D.lines[line]).filter((line) => /^(dir|file) /.test(line));
  return new Map(rows.map((line) => {
    const [kind, path, , size, hex] = line.split(" ");
    return [path, { kind, size, hex: hex || "", line }];
  }));
}

function rowOf(found, path, cls, note) {
  const size = found.kind == "dir" ? "directory" : `${count(+found.size)} B`;
  const bytes = escaped(bytesOf(found.hex)) + (note ? ` <span class="soft">${note}</span>` : "");
  const name = `<td class="mono">${escaped(path)}</td>`;
  return `<tr class="${cls}">${name}<td class="number">${size}</td><td class="mono">${bytes}</td></tr>`;
}

// The tree that is left, and in a second colour what the newest point that has begun has otherwise
function showTree() {
  const top = D.top[shown.moment.number];
  const left = pathsOf(D.outcomes[showsOutcome()]);
  const newest = showsPoint() < top && !isWrong(shown.moment, shown.place) ? pathsOf(D.trees[top]) : left;
  const paths = [...new Set([...left.keys(), ...newest.keys()])].sort();
  const rows = paths.map((path) => {
    const [one, other] = [left.get(path), newest.get(path)];
    const row = one ? rowOf(one, path, "", "") : "";
    if (one && other && one.line == other.line) return row;
    if (!other) return `${row}<tr class="ghost"><td colspan="3">↳ not in point ${top}</td></tr>`;
    if (one) return row + rowOf(other, `↳ in point ${top}`, "ghost", "");
    return rowOf(other, path, "ghost", `in point ${top} alone`);
  });
  const head = '<tr><th>path</th><th class="number">size</th><th>bytes</th></tr>';
  byId("tree").innerHTML = rows.length ? head + rows.join("") : "";
}

// Moving

function goTo(moment, place) {
  Object.assign(shown, { moment, place: Math.max(0, place), moved: new Set() });
  show();
}

// To another moment: what was pending before becomes of it what did, and what is new arrives
function step(number) {
  const before = new Map(shown.moment.pending.map((place, at) => [place, showsChoice()[at]]));
  const moment = momentOf(Math.max(0, Math.min(END, number)));
  goTo(moment, nearest(moment, moment.pending.map((place) => before.get(place) ?? ARRIVED)));
}

// To the nearest choice of a moment that left this point, if there is one
function goToPoint(number, point) {
  step(number);
  const isThere = (_, place) => D.points[shown.moment.outcomes[place]] == point;
  const place = nearest(shown.moment, showsChoice(), isThere);
  if (place >= 0) goTo(shown.moment, place);
}

function setWay(at, way) {
  const before = showsChoice();
  const place = nearest(shown.moment, before.with(at, way), (choice) => choice[at] == way);
  if (place < 0) return;
  goTo(shown.moment, place);
  shown.moved = new Set([...before.keys()].filter((one) => one != at && before[one] != showsChoice()[one]));
  showWrites();
}

// The address has the options of `replay`, or a moment and a point
function followAddress() {
  const options = Object.fromEntries(new URLSearchParams(location.hash.slice(1)));
  if (!/^\d+$/.test(options.at || "") || +options.at > END) return false;
  const moment = momentOf(+options.at);
  if (options.point) goToPoint(moment.number, +options.point);
  else goTo(moment, nearest(moment, choiceOf(moment, options)));
  return true;
}

function scrollToMoment() {
  const [width, names] = [byId("chart"), byId("left")].map((one) => one.getBoundingClientRect().width);
  const [at, seen] = [((shown.moment.number + 0.5) / (END + 1)) * width, byId("scroll").clientWidth - names];
  const from = byId("scroll").scrollLeft;
  if (seen > 0 && (at < from + 30 || at > from + seen - 30)) byId("scroll").scrollLeft = at - seen / 2;
  showView();
}

// Which part of the picture is in view, where not all of it is
function showView() {
  const [width, names] = [byId("chart"), byId("left")].map((one) => one.getBoundingClientRect().width);
  const seen = byId("scroll").clientWidth - names;
  const isFit = document.body.classList.contains("fit");
  document.body.classList.toggle("long", width > seen + 2);
  byId("zoom").hidden = !isFit && width <= seen + 2;
  byId("zoom").textContent = isFit ? "close up" : "whole run";
  byId("view").setAttribute("x", (byId("scroll").scrollLeft / width) * (END + 1));
  byId("view").setAttribute("width", Math.min(1, seen / width) * (END + 1));
}

// What the reader does

function stepByKey(key, isShift) {
  const { number } = shown.moment;
  const stops = [...new Set([0, D.mount, ...D.commands.map((one) => one.mark), END])].sort((one, other) => one - other);
  const next = stops.find((one) => one > number) ?? END;
  const previous = stops.filter((one) => one < number).pop() ?? 0;
  const steps = { ArrowRight: isShift ? next : number + 1, ArrowLeft: isShift ? previous : number - 1, Home: 0, End: END };
  if (!(key in steps)) return false;
  step(steps[key]);
  return true;
}

function pointByKey(key) {
  if (key != "ArrowUp" && key != "ArrowDown") return false;
  const left = [...new Set(shown.moment.outcomes.map((outcome) => D.points[outcome]))].sort((one, other) => one - other);
  const point = left[left.indexOf(showsPoint()) + (key == "ArrowUp" ? 1 : -1)];
  if (point !== undefined) goToPoint(shown.moment.number, point);
  return true;
}

// The button under a click, if it has this word of data
function clicked(event, word) {
  const button = event.target.closest("button");
  return button && word in button.dataset ? button.dataset : null;
}

function listen() {
  byId("scroll").addEventListener("scroll", showView);
  addEventListener("resize", showView);
  addEventListener("beforeprint", () => (byId("scroll").scrollLeft = 0));
  addEventListener("hashchange", followAddress);
  addEventListener("keydown", (event) => {
    if (event.altKey || event.ctrlKey || event.metaKey) return;
    if (stepByKey(event.key, event.shiftKey) || pointByKey(event.key)) event.preventDefault();
  });
  byId("prev").onclick = () => step(shown.moment.number - 1);
  byId("next").onclick = () => step(shown.moment.number + 1);
  byId("zoom").onclick = () => {
    document.body.classList.toggle("fit");
    scrollToMoment();
  };
  for (const id of ["points", "three"]) {
    byId(id).addEventListener("click", (event) => {
      const data = clicked(event, "place");
      if (data) goTo(shown.moment, +data.place);
    });
  }
  byId("writes").addEventListener("click", (event) => {
    const data = clicked(event, "way");
    if (!data) return;
    setWay(+data.at, +data.way);
    byId("writes").querySelector(`button[data-at="${data.at}"][data-way="${data.way}"]`).focus();
  });
  byId("catch").addEventListener("click", (event) => {
    const box = byId("chart").getBoundingClientRect();
    const number = Math.floor(((event.clientX - box.left) / box.width) * (END + 1));
    goToPoint(number, D.last - Math.floor((event.clientY - box.top - D.chart.points) / D.chart.row));
  });
  byId("over").addEventListener("click", (event) => {
    const box = byId("over").getBoundingClientRect();
    step(Math.floor(((event.clientX - box.left) / box.width) * (END + 1)));
  });
}

function begin() {
  listen();
  if (document.body.classList.contains("wide") && innerWidth > 820) document.body.classList.add("fit");
  if (!followAddress()) goTo(momentOf(D.start), worstOf(momentOf(D.start)));
}

begin();
