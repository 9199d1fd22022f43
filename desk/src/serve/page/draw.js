// Draws the desk's state. Texts are set as texts, never as markup.

const $ = (id) => document.getElementById(id);

export function element(name, text, className) {
  const made = document.createElement(name);
  if (text !== undefined) made.textContent = text;
  if (className) made.className = className;
  return made;
}

// Words of several lines: prose may wrap, a profile's line and the marks under it may not.
export function paragraphs(own, text) {
  const lines = text.split("\n").map((line) => {
    const isMarks = /^ +\| *\^+$/.test(line);
    const tone = isMarks ? "kept marks" : /^ +\d+ \|/.test(line) ? "kept" : /^ +\| warning/.test(line) ? "warning" : "";
    return element("div", line, tone);
  });
  own.replaceChildren(...lines);
}

export function draw(state, sort) {
  const armed = state.armed;
  $("work").hidden = !armed;
  $("profile").hidden = !!armed;
  $("back").hidden = !state.canBringBack;
  $("version").textContent = "Version " + state.version + ".";
  $("where").textContent = armed ? `firm ${armed.firm}, clock ${armed.clock}` : "not armed";
  document.title = armed ? `Desk: ${armed.firm}` : "Desk";
  able("undo", state.place > 0);
  able("redo", state.undone > 0);
  able("clear", !!armed);
  able("save", state.place > 0);
  able("save-words", state.place > 0);
  able("report", state.place > 0);
  $("save").classList.toggle("main", state.unsaved);
  levels(armed ? armed.levels : []);
  if (!armed) return;
  roots(armed.roots);
  locks(armed);
  rules(armed, sort);
  orders(armed.away);
  account(armed.account);
  $("drawn").textContent = `at ${armed.at}`;
  $("armed-from").textContent = `The profile, ${state.profile.name}`;
  $("armed-text").textContent = state.profile.text;
  resets(state.resets);
  lines(state);
}

// What each root and the firm have come to; the first row has the names of the columns.
function account([heads, ...rows]) {
  const row = (cells, name) => {
    const own = element("tr");
    own.append(...cells.map((cell) => element(name, cell)));
    if (name === "th") own.childNodes.forEach((cell) => cell.setAttribute("scope", "col"));
    return own;
  };
  $("account-heads").replaceChildren(row(heads, "th"));
  $("account-rows").replaceChildren(...rows.map((cells) => row(cells, "td")));
}

// What each reset does, as the desk says it.
function resets(all) {
  const row = ({ word, zeroes, lifts }) => {
    const own = element("tr");
    own.append(element("td", word), element("td", zeroes), element("td", lifts));
    return own;
  };
  $("resets").replaceChildren(...all.map(row));
}

function able(id, is) {
  const own = $(id);
  if (own.tagName === "A") {
    own.setAttribute("aria-disabled", String(!is));
    own.tabIndex = is ? 0 : -1;
  } else own.disabled = !is;
}

// A chip for the firm and each root; of many roots those that are locked, and how many are free.
const MOST_CHIPS = 8;

function levels(all) {
  const many = all.length > MOST_CHIPS;
  const shown = all.filter((level, place) => !many || place === 0 || level.locked);
  const chips = shown.map((level) => {
    const chip = element("li", `${level.name}: ${level.why}`);
    if (level.locked) {
      chip.className = level.why === "locked by hand" ? "locked hand" : "locked";
      chip.title = `since ${level.since}: ${level.cause}`;
    }
    return chip;
  });
  if (many) chips.push(element("li", `${all.length - shown.length} roots: free`));
  $("levels").replaceChildren(...chips);
}

// What is locked, since when and by what, and the library's status.
function locks(armed) {
  const locked = armed.levels.filter((level) => level.locked);
  const lines = locked.map((level) => element("li", `${level.name} is locked since ${level.since}: ${level.cause}`, "locked"));
  const [tripped, hand, all, lowest] = armed.status;
  const words = `roots tripped ${tripped}, locked by hand ${hand}, locked at all ${all}`;
  lines.push(element("li", `${words} [${[tripped, hand, all, lowest].join(" ")}]`));
  $("locks").replaceChildren(...lines);
}

// The roots to choose from; the one that was chosen stays so.
function roots(names) {
  const own = $("root");
  const now = own.value;
  if ([...own.options].map((option) => option.value).join() === names.join()) return;
  own.replaceChildren(...names.map((name) => new Option(name, name)));
  if (names.includes(now)) own.value = now;
  document.querySelectorAll("#offer button, #do-away, [data-reset], [data-lock=root]").forEach((button) => (button.disabled = names.length === 0));
}

// The orders sent away that are open; a click on one chooses it.
function orders(all) {
  $("open-orders").hidden = all.length === 0;
  const row = ({ identity, on, premium, contracts, back, open, reports }) => {
    const own = element("tr");
    const button = element("button", identity);
    button.dataset.order = identity;
    button.setAttribute("aria-label", `choose order ${identity}`);
    const first = element("td");
    first.append(button);
    own.append(first, ...[on, premium, `${back} of ${contracts}`, open, reports].map((text) => element("td", text)));
    return own;
  };
  $("orders").replaceChildren(...all.map(row));
}

// A gauge for each rule and unit that is counted for itself, kept from one state to the next so that it moves.
function rules(armed, sort) {
  const list = $("rules");
  const root = armed.roots.indexOf($("root").value) + 1;
  const sorted = armed.rules.filter((rule) => sort !== "root" || rule.level === root || rule.level === 0);
  if (sort === "share") sorted.sort((a, b) => b.thousandths - a.thousandths);
  const known = new Map([...list.children].map((own) => [own.dataset.rule, own]));
  const drawn = sorted.map((rule) => {
    const key = `${rule.number} ${rule.kind} ${rule.of} ${rule.limit}`;
    const own = known.get(key) || gauge(key);
    fill(own, rule);
    return own;
  });
  if (drawn.length !== list.children.length || drawn.some((own, place) => list.children[place] !== own)) list.replaceChildren(...drawn);
}

function gauge(key) {
  const own = element("li");
  own.dataset.rule = key;
  const top = element("div", undefined, "top");
  top.append(element("b"), element("span"), element("i"));
  const bar = element("div", undefined, "bar");
  bar.append(element("i"));
  bar.setAttribute("role", "meter");
  bar.setAttribute("aria-valuemin", "0");
  bar.setAttribute("aria-valuemax", "100");
  const bottom = element("div", undefined, "bottom");
  bottom.append(element("span", "", "used"), element("span", "", "left"), element("span", "", "trip"), element("span", "", "back"), element("span", "", "past"));
  own.append(top, bar, bottom);
  return own;
}

function fill(own, rule) {
  const [top, bar, bottom] = own.children;
  top.children[0].textContent = `rule ${rule.number}`;
  top.children[1].textContent = `${rule.kind}, ${rule.meaning}`;
  top.children[2].textContent = `${rule.percent}%`;
  const share = rule.thousandths;
  bar.className = "bar" + (share >= 1000 ? " full" : share >= 800 ? " high" : share >= 500 ? " half" : "");
  bar.setAttribute("aria-label", `use of rule ${rule.number}, ${rule.of}`);
  bar.setAttribute("aria-valuenow", String(Math.min(rule.percent, 100)));
  bar.firstChild.style.width = `${Math.min(share, 1000) / 10}%`;
  bottom.children[0].textContent = `used ${rule.used} of ${rule.limit}`;
  bottom.children[1].textContent = `left ${rule.left} [${rule.remaining}]`;
  bottom.children[2].textContent = rule.tripped ? `tripped at ${rule.tripped}` : "";
  bottom.children[3].textContent = rule.back ? `${rule.back} of it came back from away` : "";
  bottom.children[4].textContent = rule.past ? `${rule.past} past the limit` : "";
}

export function drawLine(entry, place) {
  const row = element("tr");
  row.dataset.place = entry.place;
  if (entry.place === place) row.className = "now";
  row.append(element("td", entry.place), element("td", entry.asked), element("td", entry.words, entry.tone));
  row.append(element("td", entry.numbers.join(" ")));
  const cell = element("td");
  if (entry.place !== place) {
    const button = element("button", "back to here");
    button.dataset.go = entry.place;
    button.setAttribute("aria-label", `back to event ${entry.place}`);
    cell.append(button);
  }
  row.append(cell);
  return row;
}

function lines(state) {
  $("lines").replaceChildren(...state.log.map((entry) => drawLine(entry, state.place)).reverse());
  $("earlier").hidden = state.log.length === 0 || state.log[0].place <= 1;
  const undone = state.undone > 0 ? `, ${state.undone} undone (a new event drops them)` : "";
  $("counts").textContent = `${state.place} ${state.place === 1 ? "event" : "events"}${undone}${state.unsaved ? ", not saved" : ""}`;
}

// Says what came of an event, or shows words.
export function say(said) {
  const entry = said.event;
  const block = said.words && said.words.includes("\n");
  $("asked").textContent = entry ? entry.asked : "";
  $("words").className = entry ? entry.tone : "";
  $("words").textContent = entry ? entry.words : block ? "" : said.words;
  $("shown").hidden = !block;
  $("shown").className = "";
  paragraphs($("shown"), block ? said.words : "");
  $("numbers").hidden = !entry;
  if (entry) [...$("numbers").querySelectorAll("dd")].forEach((cell, place) => (cell.textContent = entry.numbers[place]));
}

// Says what is wrong with what was asked; nothing was changed.
export function advise(advice) {
  say({ words: advice });
  (advice.includes("\n") ? $("shown") : $("words")).className = "advice";
  if ($("work").hidden) paragraphs($("check"), advice);
}
