// The page: a field, the parts of its number in colour, its short and long text, and what Intl.NumberFormat writes.
import { CompactDecimalFormatter, LegumeyetError } from "../index.js";
import { directionOf } from "../number-field.js";
import locales from "../locales.js";

const on = (id) => document.getElementById(id);
const field = on("number");
let compact = [];
let intl = null;

// A name in English beside the tag, where the browser has one.
function nameOf(tag) {
  try {
    return new Intl.DisplayNames(["en"], { type: "language" }).of(tag);
  } catch {
    return "";
  }
}

function choose(tag) {
  for (const it of compact) it.close();
  compact = ["short", "long"].map((compactDisplay) => new CompactDecimalFormatter(tag, { compactDisplay }));
  intl = new Intl.NumberFormat(tag, { maximumFractionDigits: 20 });
  field.locale = tag;
  for (const id of ["parts", "short", "long", "intl"]) Object.assign(on(id), { lang: tag, dir: directionOf(tag) });
  show();
}

function span({ type, value }) {
  return Object.assign(document.createElement("span"), { className: type, title: type, textContent: value });
}

// The kinds of parts that are there, each once, in their colours.
function legend(parts) {
  const kinds = new Set(parts.map(({ type }) => type));
  return [...kinds].map((type) => Object.assign(document.createElement("li"), { className: type, textContent: type }));
}

// What a compact formatter writes; a number may be too large to be shown so.
function said(call) {
  try {
    return call();
  } catch (error) {
    if (error instanceof LegumeyetError) return error.word;
    throw error;
  }
}

function show() {
  const { value, formatter } = field;
  const parts = value === "" ? [] : formatter.formatToParts(value);
  on("parts").replaceChildren(...parts.map(span));
  on("parts").setAttribute("aria-label", parts.map((it) => it.value).join(""));
  on("kinds").replaceChildren(...legend(parts));
  on("value").textContent = value;
  const [short, long] = compact;
  const texts = value === "" ? {} : { short: said(() => short.format(value)), shown: said(() => short.shown(value)), long: said(() => long.format(value)) };
  for (const id of ["short", "shown", "long"]) on(id).textContent = texts[id] ?? "";
  on("intl").textContent = value === "" ? "" : intl.format(value);
  on("agrees").textContent = value === "" ? "" : intl.format(value) === formatter.format(value) ? "the same text" : "another text";
  on("sent").textContent = "";
}

function begin() {
  on("locale").append(...locales.map((tag) => new Option(`${tag}  ${nameOf(tag)}`, tag, tag === "en")));
  on("locale").addEventListener("change", () => choose(on("locale").value));
  field.addEventListener("input", show);
  on("form").addEventListener("submit", (event) => {
    event.preventDefault();
    on("sent").textContent = new URLSearchParams(new FormData(on("form"))).toString();
  });
  on("form").addEventListener("reset", () => setTimeout(() => choose(on("locale").value)));
  choose(new URLSearchParams(location.search).get("locale") ?? "en");
  on("locale").value = field.locale;
  document.documentElement.dataset.ready = "";
}

begin();
