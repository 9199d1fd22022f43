// What buttons and keys do: each makes the line that would be typed at the desk.
import { arm, back, bringBack, choose, clear, earlier, edited, forth, go, line, redraw, refresh, replay } from "./desk.js";
import { afterEnter, wireKeys } from "./keys.js";

const $ = (id) => document.getElementById(id);
const EXAMPLE = "ABCD,rate_vol,XYZ,500,1000\nABCD,abs_ntnl,XYZ,20000\nABCD,rate_count,QQQ,10,60000,,P,F\nABCD,abs_vol,,50000,,T\n";

const time = () => $("time").value.trim() || "now";
const picked = (name) => document.querySelector(`input[name=${name}]:checked`).value;

const offer = () => line(`offer ${time()} ${$("root").value} ${picked("side")} ${picked("month")} ${$("premium").value} ${$("contracts").value}`);
const order = (reset) => line(`order ${time()} ${$("root").value}${reset ? " reset " + reset : ""}`);
const lock = (what) => line(`lock ${time()} ${what === "firm" ? "firm" : $("root").value}`);

const away = () =>
  line(`away ${time()} ${$("root").value} ${picked("side")} ${picked("month")} ${$("premium").value} ${$("contracts").value} ${$("identity").value} ${$("reports").value}`);
const cameBack = () => line(`back ${time()} ${$("identity").value} ${$("contracts").value}`);
const closeOrder = () => line(`close ${time()} ${$("identity").value}`);

// the lines that were typed, for the arrows
const history = [];
let place = 0;

function typed(event) {
  event.preventDefault();
  const text = $("line").value.trim();
  if (!text) return;
  history.push(text);
  place = history.length;
  line(text).then((done) => done && ($("line").value = ""));
}

function recall(event) {
  const step = { ArrowUp: -1, ArrowDown: 1 }[event.key];
  if (!step) return;
  event.preventDefault();
  place = Math.max(0, Math.min(history.length, place + step));
  $("line").value = history[place] ?? "";
}

const focus = (id) => () => {
  $(id).focus();
  $(id).select();
};

const follow = (id) => () => $(id).getAttribute("aria-disabled") !== "true" && $(id).click();

const KEYS = {
  o: offer, r: () => order(""), 1: () => order("symbol"), 2: () => order("firm"), 3: () => order("both"),
  4: () => order("t"), 5: () => order("e"), 6: () => order("te"),
  a: away, b: cameBack, x: closeOrder,
  l: () => afterEnter(`root ${$("root").value}`, () => lock("root")), f: () => afterEnter("the firm", () => lock("firm")), u: () => back(), y: () => forth(),
  t: focus("time"), c: focus("contracts"), "/": focus("line"), s: follow("save"), g: follow("report"),
};

const on = (id, kind, act) => $(id).addEventListener(kind, act);
const each = (selector, act) => document.querySelectorAll(selector).forEach((own) => own.addEventListener("click", () => act(own)));

// A file that was chosen; the same one can be chosen again.
const fileOf = (act) => (event) => {
  const file = event.target.files[0];
  if (file) act(file);
  event.target.value = "";
};

function late(act, ms) {
  let waiting;
  return () => {
    clearTimeout(waiting);
    waiting = setTimeout(act, ms);
  };
}

export function wire() {
  on("text", "input", late(edited, 150));
  on("text", "keydown", (event) => event.ctrlKey && event.key === "Enter" && arm());
  on("file", "change", fileOf(choose));
  on("sample", "click", () => {
    $("text").value = EXAMPLE;
    edited();
  });
  on("arm", "click", arm);
  on("back", "click", bringBack);
  on("clear", "click", clear);
  on("undo", "click", back);
  on("redo", "click", forth);
  // the file is with the browser a moment later, and the day then counts as saved
  for (const save of ["save", "save-words"]) on(save, "click", () => setTimeout(refresh, 400));
  on("offer", "submit", (event) => {
    event.preventDefault();
    offer();
  });
  on("sending", "submit", (event) => {
    event.preventDefault();
    away();
  });
  on("do-back", "click", cameBack);
  on("do-close", "click", closeOrder);
  on("orders", "click", (event) => event.target.dataset.order && ($("identity").value = event.target.dataset.order));
  on("typed", "submit", typed);
  on("line", "keydown", recall);
  on("at", "change", refresh);
  on("sort", "change", redraw);
  on("root", "change", redraw);
  on("day", "change", fileOf(replay));
  on("earlier", "click", earlier);
  on("lines", "click", (event) => event.target.dataset.go && go(event.target.dataset.go));
  each("[data-time]", (own) => ($("time").value = own.dataset.time));
  each("[data-reset]", (own) => order(own.dataset.reset));
  each("[data-lock]", (own) => lock(own.dataset.lock));
  wireKeys(KEYS);
}
