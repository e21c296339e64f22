"use strict";
const points = JSON.parse(document.getElementById("points").textContent);
const slider = document.getElementById("at"), cursor = document.getElementById("cursor");

/* An element with a class, or none, and with what is in it: texts and elements. */
function made(name, of, ...inside) {
  const element = document.createElement(name);
  if (of) element.className = of;
  element.append(...inside);
  return element;
}

function head(...titles) {
  return made("thead", "", made("tr", "", ...titles.map((title) => made("th", "", title))));
}

/* A table that is scrolled where it is wider than the page. */
function framed(caption, titles, rows) {
  const table = made("table", "", made("caption", "", caption), head(...titles), made("tbody", "", ...rows));
  return made("div", "wide", table);
}

function tableOf(table) {
  const titles = ["row", ...table.flags.map((isKey, column) => `c${column}${isKey ? " (key)" : ""}`)];
  const rows = table.rows.map(([name, values]) => made("tr", table.changed.includes(name) ? "changed" : "",
    made("td", "", name), ...values.map((value) => made("td", "", value))));
  return framed(`Table ${table.name}, ${table.rows.length} row${table.rows.length === 1 ? "" : "s"}`, titles, rows);
}

function cellOf(row) {
  return row ? made("td", "", row) : made("td", "none", "no row");
}

function sessionOf(session) {
  const flags = [...session.flags, `attached: ${session.attached.join(", ") || "none"}`].join("; ");
  const kindOf = (it) => it.kind ? it.kind + (it.indirect ? ", indirect" : "") : "no change";
  const rows = session.records.map((it) => made("tr", "", made("td", "", `${it.table} ${it.key}`),
    cellOf(it.first), cellOf(it.now), made("td", it.kind || "none", kindOf(it))));
  const titles = ["touched", "first image", "row now", "a capture has"];
  return framed(`Session ${session.number} (${flags})`, titles, rows);
}

/* A call in a few words, for who changed what it is about. */
function short(number) {
  return `call ${number}, by ${points[number].who}: ${points[number].line}`;
}

function callOf(point) {
  if (!point.line) return [made("p", "", "Before the first call there are no tables and no sessions.")];
  const parts = [made("p", "", made("b", "", point.who), ": ", made("code", "", point.line)),
    made("p", point.kind === "refused" ? "refusal" : "", "Reply: ", made("code", "", point.reply))];
  if (point.capture)
    parts.push(made("p", "", `Session ${point.capture.session} captures what has changed since call `,
      `${point.capture.since}: `, made("code", "", point.capture.changes.join("; ") || "nothing")));
  if (point.cause) parts.push(made("p", "refusal", `Refused by ${short(point.cause)}`));
  if (point.looked && point.looked.length) {
    const rows = point.looked.map(([item, changed], at) => made("tr", at === point.item ? "changed" : "",
      made("td", "", String(at)), made("td", "", item), made("td", changed ? "" : "none",
        changed ? `changed by ${short(changed)}` : "as it was")));
    const caption = `What the transaction looked at, from version ${point.base}`;
    parts.push(framed(caption, ["item", "what", "at its commit"], rows));
  }
  return parts;
}

function show() {
  const at = Number(slider.value), point = points[at];
  document.getElementById("where").textContent = `${at} of ${points.length - 1}, version ${point.version}`;
  slider.setAttribute("aria-valuetext", at ? `call ${at}, ${point.who}: ${point.line}` : "before the first call");
  document.getElementById("call").replaceChildren(...callOf(point));
  document.getElementById("tables").replaceChildren(made("h2", "", "Tables"), ...point.tables.map(tableOf),
    ...(point.tables.length ? [] : [made("p", "soft", "none")]));
  document.getElementById("sessions").replaceChildren(made("h2", "", "Sessions"), ...point.sessions.map(sessionOf),
    ...(point.sessions.length ? [] : [made("p", "soft", "none")]));
  const x = START + STEP * at, scroll = document.querySelector(".scroll");
  cursor.setAttribute("x", x - STEP / 2);
  cursor.setAttribute("width", STEP);
  scroll.scrollLeft = x - scroll.clientWidth / 2;
}

function go(to) {
  slider.value = to;
  show();
}

const svg = document.querySelector("svg"), START = Number(svg.dataset.left), STEP = Number(svg.dataset.step);
slider.addEventListener("input", show);
document.getElementById("back").addEventListener("click", () => go(Number(slider.value) - 1));
document.getElementById("on").addEventListener("click", () => go(Number(slider.value) + 1));
document.querySelector(".controls").addEventListener("submit", (event) => event.preventDefault());
svg.addEventListener("click", (event) => {
  const point = event.target.closest(".point");
  if (point) go(point.dataset.at);
});
/* The arrows move the point wherever the focus is; the slider has them itself. */
document.addEventListener("keydown", (event) => {
  if (event.target === slider || event.ctrlKey || event.altKey || event.metaKey) return;
  const at = Number(slider.value);
  const to = { ArrowLeft: at - 1, ArrowRight: at + 1, Home: 0, End: points.length - 1 };
  if (event.key in to) {
    event.preventDefault();
    go(to[event.key]);
  }
});
const wanted = /^#([0-9]+)$/.exec(location.hash);
go(wanted ? wanted[1] : points.length - 1);
