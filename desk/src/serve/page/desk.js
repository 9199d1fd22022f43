// Asks the desk, draws what it answers, and carries out what buttons and keys ask for.
import { advise, draw, drawLine, paragraphs, say } from "./draw.js";
import { wire } from "./forms.js";

const $ = (id) => document.getElementById(id);

// the profile as it was chosen, byte for byte, until it is edited
let chosen = null;
let state = null;

async function ask(path, options) {
  let reply;
  try {
    reply = await fetch(path, options);
  } catch {
    $("gone").hidden = false;
    throw new Error("the desk does not answer");
  }
  $("gone").hidden = true;
  const type = reply.headers.get("content-type") || "";
  const body = type.startsWith("application/json") ? await reply.json() : { advice: await reply.text() };
  return { ok: reply.ok, body };
}

// Sends something to be done; what is wrong with it is said, and stays typed.
export async function send(path, body) {
  const { ok, body: answer } = await ask(path, { method: "POST", body });
  if (!ok) {
    advise(answer.advice);
    return false;
  }
  take(answer);
  // the gauges stay at the time that was asked for
  if ($("at").value.trim()) await refresh();
  return true;
}

function take(answer) {
  state = answer.state;
  draw(state, $("sort").value);
  if (answer.said) say(answer.said);
}

// The state as it is, its gauges at the time that was asked for.
export async function refresh() {
  const { ok, body } = await ask("state?at=" + encodeURIComponent($("at").value.trim()));
  if (ok) take(body);
  else advise(body.advice);
}

export const line = (text) => send("line", text);
export const go = (place) => send("go", String(place));
export const back = () => state && state.place > 0 && go(state.place - 1);
export const forth = () => state && state.undone > 0 && go(state.place + 1);
export const redraw = () => state && draw(state, $("sort").value);

// The bytes of the profile and their name.
const profile = () => (chosen ? chosen.bytes : new TextEncoder().encode($("text").value));
const name = () => (chosen ? chosen.name : state?.profile.name || "profile");

export const arm = () => send("arm?name=" + encodeURIComponent(name()), profile());
export const clear = async () => {
  if (state.unsaved && !confirm("Some events are not saved. Clear anyway? The day can be brought back until the next one is cleared.")) return;
  if (await send("clear", "")) check();
};
export const bringBack = () => send("back", "");
export const replay = async (file) => {
  const form = $("old").checked ? "&form=old" : "";
  return send("replay?name=" + encodeURIComponent(file.name) + form, await file.arrayBuffer());
};

export async function choose(file) {
  const bytes = await file.arrayBuffer();
  $("text").value = new TextDecoder().decode(bytes);
  chosen = { name: file.name, bytes };
  check();
}

export function edited() {
  chosen = null;
  check();
}

let asked = 0;
export async function check() {
  const mine = ++asked;
  const bytes = profile();
  const size = bytes.byteLength ?? bytes.length;
  const { body } = size > 0 ? await ask("check", { method: "POST", body: bytes }) : { body: { good: null, words: "" } };
  if (mine !== asked) return;
  const verdict = $("verdict");
  verdict.textContent = body.good === null ? "What it says" : body.good ? "Good" : "Refused";
  verdict.className = body.good === null ? "" : body.good ? "good" : "bad";
  paragraphs($("check"), body.words ?? body.advice);
}

// Older lines of the log than those that came with the state.
export async function earlier() {
  const first = Number($("lines").lastElementChild?.dataset.place || 1);
  const { ok, body } = await ask("log?to=" + (first - 1));
  if (!ok) return;
  body.reverse().forEach((entry) => $("lines").append(drawLine(entry, state.place)));
  $("earlier").hidden = body.length === 0 || body[body.length - 1].place <= 1;
}

wire();
await refresh();
$("text").value = state.profile.text;
if (state.log.length > 0) say({ event: state.log[state.log.length - 1] });
check();
// another window may have worked at the same desk
document.addEventListener("visibilitychange", () => document.visibilityState === "visible" && refresh());
