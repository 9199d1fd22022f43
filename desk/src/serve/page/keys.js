// Keys of one letter: they can be switched off, and a lock that a key asks for is done when Enter confirms it.
import { advise } from "./draw.js";

const $ = (id) => document.getElementById(id);

// kept as long as the window is open, through every reload
const SWITCH = "one-letter keys";
const areOn = () => sessionStorage.getItem(SWITCH) !== "off";

// the lock that waits for Enter
let waiting = null;

// Asks before a lock; the next key decides.
export function afterEnter(what, act) {
  waiting = act;
  advise(`Press Enter to lock ${what}; any other key leaves it as it is.`);
}

function decide(event) {
  const act = waiting;
  waiting = null;
  event.preventDefault();
  if (event.key === "Enter") act();
  else advise("Nothing was locked.");
}

function pressed(event, keys) {
  const writing = event.target.closest("input:not([type=radio], [type=checkbox]), textarea, select");
  if (event.key === "Escape" && writing) writing.blur();
  if (writing || event.ctrlKey || event.metaKey || event.altKey || $("work").hidden) {
    waiting = null;
    return;
  }
  // a key that is held down confirms nothing
  if (waiting) return event.repeat ? event.preventDefault() : decide(event);
  const act = areOn() && keys[event.key];
  if (!act) return;
  event.preventDefault();
  act();
}

export function wireKeys(keys) {
  const own = $("keys");
  own.checked = areOn();
  own.addEventListener("change", () => sessionStorage.setItem(SWITCH, own.checked ? "on" : "off"));
  document.addEventListener("keydown", (event) => pressed(event, keys));
  document.addEventListener("pointerdown", () => (waiting = null));
}
