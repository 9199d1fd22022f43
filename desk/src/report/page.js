// A crosshair on each rule's picture, by pointer or arrow keys: the time, what was used then, the limit and what was left, read from the picture's own path.
(() => {
  "use strict";
  const { first, step, count } = Object.fromEntries(Object.entries(document.body.dataset).map(([name, text]) => [name, Number(text)]));
  const grouped = (number) => String(number).replace(/\B(?=(\d{3})+$)/g, ",");
  const two = (number) => String(number).padStart(2, "0");
  const face = (ms) => {
    if (ms < 10000) return ms + "ms";
    const seconds = Math.floor(ms / 1000);
    return two(Math.floor(seconds / 3600)) + ":" + two(Math.floor(seconds / 60) % 60) + ":" + two(seconds % 60) + "." + String(ms % 1000).padStart(3, "0");
  };
  // amounts are whole numbers of any size
  const dollars = (amount) => {
    const rest = amount % 10000n;
    const cents = rest === 0n ? "" : rest % 100n === 0n ? "." + two(rest / 100n) : "." + String(rest).padStart(4, "0");
    return "$" + grouped(amount / 10000n) + cents;
  };
  const least = (a, b) => (a < b ? a : b);
  const most = (a, b) => (a > b ? a : b);
  // what a path has in each bucket: [least, most, last]; it goes to the right by buckets and up by amounts
  const buckets = (path, unit) => {
    const used = [];
    let x = -9, y = 0n, letter = "";
    let range = [0n, 0n, 0n];
    for (const [, named, digits] of path.getAttribute("d").slice("M-9 0".length).matchAll(/([hv])?\s*(-?\d+)/g)) {
      letter = named || letter;
      if (letter === "v") {
        y -= BigInt(digits) * unit;
        range = [least(range[0], y), most(range[1], y), y];
        continue;
      }
      const end = Math.min(x + Number(digits), count);
      for (let at = Math.max(x, 0); at < end; at++) {
        used[at] = at === x ? range : [y, y, y];
      }
      if (x < 0) range = [y, y, y];
      if (end > x) range = [y, y, y];
      x += Number(digits);
      if (x >= count) break;
    }
    return used;
  };
  const words = (plot, at) => {
    plot.used ||= buckets(plot.querySelector("path.use"), BigInt(plot.dataset.unit));
    const away = plot.querySelector("path.away");
    if (away) plot.back ||= buckets(away, BigInt(plot.dataset.awayUnit));
    const amount = (number) => ("money" in plot.dataset ? dollars(number) : grouped(number));
    const [low, high, last] = plot.used[at];
    const limit = BigInt(plot.dataset.limit);
    const begin = first + at * step;
    const when = step === 1 ? face(begin) : face(begin) + " to " + face(begin + step - 1);
    const range = low === high ? "" : " (between " + amount(low) + " and " + amount(high) + ")";
    const back = away && plot.back[at][2] > 0n ? ", of it " + amount(plot.back[at][2]) + " from away" : "";
    const rest = last > limit ? amount(last - limit) + " past it" : "left " + amount(limit - last);
    return when + ": used " + amount(last) + range + back + ", limit " + amount(limit) + ", " + rest;
  };
  const show = (plot, at) => {
    const chart = plot.parentElement;
    let readout = chart.querySelector(".readout");
    if (!readout) {
      readout = document.createElement("output");
      readout.className = "readout";
      chart.append(readout);
      const line = document.createElementNS(plot.namespaceURI, "line");
      line.setAttribute("class", "cross");
      line.setAttribute("y1", "0");
      line.setAttribute("y2", "106");
      plot.append(line);
    }
    plot.at = Math.max(0, Math.min(count - 1, at));
    const x = (plot.at + 0.5) / count;
    const line = plot.querySelector(".cross");
    line.setAttribute("x1", 100 * x + "%");
    line.setAttribute("x2", 100 * x + "%");
    readout.textContent = words(plot, plot.at);
    const room = chart.clientWidth - readout.offsetWidth;
    readout.style.left = Math.max(0, Math.min(room, plot.clientWidth * x + 44 - readout.offsetWidth / 2)) + "px";
  };
  const hide = (plot) => plot.parentElement.querySelectorAll(".readout, .cross").forEach((part) => part.remove());
  for (const plot of document.querySelectorAll(".plot[data-limit]")) {
    plot.addEventListener("pointermove", (event) => {
      const box = plot.getBoundingClientRect();
      show(plot, Math.floor(((event.clientX - box.left) / box.width) * count));
    });
    plot.addEventListener("pointerleave", () => hide(plot));
    plot.addEventListener("blur", () => hide(plot));
    plot.addEventListener("keydown", (event) => {
      const far = event.shiftKey ? Math.ceil(count / 50) : 1;
      const by = { ArrowLeft: -far, ArrowRight: far }[event.key];
      if (by === undefined) return;
      event.preventDefault();
      show(plot, (plot.at ?? (by > 0 ? -1 : count)) + by);
    });
  }
})();
