// <number-field locale="de">: a form field of a number, which is written as the readers of a locale write it while somebody types. With
// `currency="EUR"` it is of amounts of money, with `percent` of percents. docs/field.md of the repository says what it does. It is defined where
// this module is imported, over what was loaded before, as a module of pages, and else over the world's book.
import { CurrencyFormatter, DecimalFormatter, PercentFormatter } from "./formatters.js";
import { hasWorld } from "./books.js";
import { FieldText, History, plainOf } from "./field.js";
import { compare, neighbours, padded, plus } from "./field-decimals.js";
import { MESSAGES, languageOf } from "./field-messages.js";
import { directionOf } from "./tags.js";

export { directionOf };
const OPENING = ["locale", "currency", "percent"];
const JUDGING = ["required", "min", "max", "step", ...Object.keys(MESSAGES.en).map((it) => `${it}-message`)];
const NAMING = ["aria-label", "aria-labelledby", "aria-describedby"];
const HANDED_ON = ["placeholder", "readonly", "autocomplete", "enterkeyhint", "inputmode"];
const OF_INPUT = ["id", "name", "value", "disabled", "autofocus", ...JUDGING, ...NAMING, ...HANDED_ON];
const EXAMPLE = "1234.5";
// Inputs of which a form without a button has one at most that submits by Enter.
const SUBMITTING = "text search tel url email password date month week time datetime-local number number-field".split(" ");
const STYLE = `
  :host { display: inline-grid; align-items: start; max-inline-size: 100% }
  :host([hidden]) { display: none }
  form { display: contents }
  input { font: inherit; color: inherit; inline-size: 100%; box-sizing: border-box; padding: 0.3em 0.5em; border: 1px solid #767676; border-radius: 0.25em;
    background: inherit; font-variant-numeric: tabular-nums }
  input:focus-visible { outline: 2px solid #0b57d0; outline-offset: 1px }
  input[aria-invalid="true"] { border-color: #b3261e; outline-color: #b3261e }
  p { color: #b3261e; font-size: 0.8em; margin: 0.2em 0 0; min-block-size: 1.2em }
  p:empty { margin: 0; min-block-size: 0 }`;
// One for all fields, which no policy of styles forbids.
const SHEET = new CSSStyleSheet();
SHEET.replaceSync(STYLE);
// Where the library does not load a field can be typed into, and says why no text is a number.
const library = hasWorld() ? { CurrencyFormatter, DecimalFormatter, PercentFormatter } : await import("./index.js").catch((error) => ({ error }));

// A tag, those of its parents and that of English, for the first that has tables.
function tagsOf(locale) {
  const tag = locale.replaceAll("_", "-");
  const words = tag.split(/-\w-/)[0].split("-");
  return [tag, ...words.map((_, at) => words.slice(0, words.length - at).join("-")), "en"];
}

// The language of the page at an element, also where it is inside another one's shadow.
function pageLanguage(element) {
  for (let it = element; it; it = it.getRootNode().host) {
    const found = it.closest("[lang]")?.lang;
    if (found !== undefined) return found;
  }
  return "";
}

// What a key asks for: `z` on a keyboard of another script is that of its place.
function historyOf({ key, code, ctrlKey, metaKey, altKey, shiftKey }) {
  if (!(ctrlKey || metaKey) || altKey) return null;
  const letter = /^[a-z]$/i.test(key) ? key.toLowerCase() : { KeyZ: "z", KeyY: "y" }[code];
  if (letter === "z") return shiftKey ? "redo" : "undo";
  return letter === "y" ? "redo" : null;
}

export class NumberField extends HTMLElement {
  static formAssociated = true;
  static observedAttributes = [...OPENING, "value", ...JUDGING, ...NAMING, ...HANDED_ON];
  static #all = new Set(); // those of pages
  static #languages = new MutationObserver(() => this.#all.forEach((it) => it.#follow()));

  #internals = this.attachInternals();
  #input = document.createElement("input");
  #message = document.createElement("p");
  #field = new FieldText(null);
  #formatter = null;
  #digits = 0; // of the fraction, that an amount is shown with at least
  #opened = null; // the locale that was asked for
  #fault = ""; // why there is no formatter
  #custom = ""; // the message that the page set
  #history = new History();
  #selection; // what is left of the text at both ends by an edit under way that replaces what is selected
  #composedFrom = null; // what the field was before what is composed
  #told = ""; // the text of the last `change`
  #isTouched = false; // by its user or the page, so that the attribute `value` no longer changes it

  constructor() {
    super();
    const root = this.attachShadow({ mode: "open", delegatesFocus: true });
    root.adoptedStyleSheets = [SHEET];
    Object.assign(this.#input, { type: "text", inputMode: "decimal", autocomplete: "off", spellcheck: false, id: "input" });
    this.#input.setAttribute("part", "input");
    this.#input.setAttribute("aria-describedby", "message");
    Object.assign(this.#message, { id: "message", dir: "auto" });
    this.#message.setAttribute("part", "message");
    this.#message.setAttribute("aria-live", "polite");
    const form = document.createElement("form"); // so that Enter submits as in an input of the page
    form.append(this.#input);
    const inside = Object.assign(document.createElement("slot"), { hidden: true });
    root.append(form, this.#message, inside);
    this.#listen(form, inside);
  }

  #listen(form, inside) {
    const input = this.#input;
    input.addEventListener("beforeinput", (event) => this.#begins(event));
    input.addEventListener("input", (event) => this.#edited(event));
    for (const it of ["compositionend", "dragend"]) input.addEventListener(it, () => this.#settle());
    input.addEventListener("keydown", (event) => this.#pressed(event));
    input.addEventListener("focus", () => this.#entered());
    input.addEventListener("blur", () => this.#left());
    form.addEventListener("submit", (event) => {
      event.preventDefault();
      this.#submit();
    });
    this.addEventListener("invalid", () => this.#say(this.#internals.validationMessage));
    inside.addEventListener("slotchange", () => this.#takeOver());
  }

  connectedCallback() {
    NumberField.#all.add(this);
    NumberField.#languages.observe(this.getRootNode(), { attributeFilter: ["lang"], subtree: true });
    this.#takeOver();
    this.#label();
    this.#open();
    if (this.hasAttribute("autofocus") && document.activeElement === document.body) this.focus();
  }

  disconnectedCallback() {
    NumberField.#all.delete(this);
  }

  attributeChangedCallback(name, before, now) {
    if (OPENING.includes(name)) this.#open();
    else if (name === "value") this.#isTouched || this.#put(now ?? "");
    else if (NAMING.includes(name)) this.#label();
    else if (HANDED_ON.includes(name)) now === null ? this.#input.removeAttribute(name) : this.#input.setAttribute(name, now);
    else this.#judge();
  }

  // An `<input>` inside is what stands here until this module is there: its attributes, and what was typed into it.
  #takeOver() {
    const inside = this.querySelector("input");
    if (inside === null) return;
    const isFocused = inside.matches(":focus");
    const typed = inside.value === inside.defaultValue ? null : inside.value;
    inside.remove();
    for (const { name, value } of inside.attributes) if (OF_INPUT.includes(name) && !this.hasAttribute(name)) this.setAttribute(name, value);
    this.#open();
    if (typed !== null) this.#reads(typed);
    if (isFocused) this.focus();
  }

  // The formatter of one of these locales: of amounts, of percents or of plain numbers.
  #formatterOf(locales) {
    const currency = this.currency?.toUpperCase();
    if (currency !== undefined) return new library.CurrencyFormatter(locales, { currency, currencyDigits: "given" });
    return this.percent ? new library.PercentFormatter(locales) : new library.DecimalFormatter(locales);
  }

  // Opens the formatter of the locale, and writes the number anew.
  #open() {
    const { value, text } = this.#field;
    this.#opened = this.locale;
    this.#formatter?.close();
    try {
      this.#openOf(tagsOf(this.#opened));
    } catch (error) {
      [this.#field, this.#formatter, this.#fault] = [new FieldText(null), null, error.message];
    }
    if (!this.#isTouched) this.#put(this.getAttribute("value") ?? "");
    else if (value !== null) this.#put(value);
    else this.#reads(text);
  }

  #openOf(tags) {
    if (library.error) throw library.error;
    this.#formatter = this.#formatterOf(tags);
    this.#field = new FieldText(this.#formatter);
    const { locale, currencyFractionDigits = 0 } = this.#formatter.resolvedOptions();
    this.#digits = currencyFractionDigits;
    this.#fault = "";
    this.#input.lang = locale;
    this.#input.dir = directionOf(locale);
  }

  // The language of the page has changed.
  #follow() {
    if (this.locale !== this.#opened) this.#open();
    else this.#judge();
  }

  #label() {
    const named = (name) => (this.getAttribute(name) ?? "").split(/\s+/).map((id) => id && this.getRootNode().getElementById?.(id)).filter(Boolean);
    const own = this.getAttribute("aria-label");
    const labels = named("aria-labelledby").length > 0 ? named("aria-labelledby") : own === null ? this.#internals.labels : [];
    const name = [...labels].map((it) => it.textContent.trim()).join(" ");
    this.#input.setAttribute("aria-label", name || (own ?? ""));
    this.#input.ariaDescribedByElements = [this.#message, ...named("aria-describedby")];
  }

  #begins(event) {
    const isUndo = event.inputType === "historyUndo";
    if (isUndo || event.inputType === "historyRedo") {
      event.preventDefault();
      this.#goes(isUndo);
    } else {
      const { selectionStart, selectionEnd, value } = this.#input;
      this.#selection = { front: selectionStart, back: value.length - selectionEnd };
    }
  }

  // What the field is before an edit at the caret, for undo.
  #before(caret = this.#input.selectionStart) {
    return this.#composedFrom ?? { ...this.#field.state, caret: this.#field.nearest(caret) };
  }

  // What is composed, and what is dragged away, stays as it is until that ends: the browser goes on from its text.
  #edited({ isComposing, inputType }) {
    const { value, selectionStart } = this.#input;
    const before = this.#before(this.#selection?.front ?? this.#field.state.caret);
    const isOfSelection = inputType === "insertText" || inputType === "insertFromPaste";
    if (isComposing || inputType === "deleteByDrag") {
      this.#composedFrom = before;
      this.#field.composed(value, selectionStart);
    } else {
      this.#field.edited(value, selectionStart, isOfSelection ? this.#selection : undefined, inputType?.endsWith("Forward"));
      this.#ends(before);
    }
    this.#selection = undefined;
    this.#shows();
  }

  // An edit is made: it can be undone.
  #ends(before) {
    this.#composedFrom = null;
    if (before.text !== this.#field.text) this.#history.keep(before);
  }

  // What was composed is written anew. Its events came before.
  #settle() {
    if (this.#composedFrom === null) return;
    const { value } = this;
    this.#field.settled();
    this.#ends(this.#composedFrom);
    this.#shows();
    if (value !== this.value) this.#tell("input");
  }

  #reads(text) {
    this.#field.edited(text, text.length, { front: 0, back: 0 });
    this.#starts();
    this.#shows();
  }

  // Undo ends here, and what is shown was told: a text of before may be another number in the locale of now.
  #starts() {
    this.#history.clear();
    this.#composedFrom = null;
    this.#told = this.#field.text;
  }

  #tell(name) {
    this.dispatchEvent(new Event(name, { bubbles: true, composed: name === "input" }));
  }

  // Shows what an edit left.
  #shows() {
    const { text, caret } = this.#field.state;
    const input = this.#input;
    this.#isTouched = true;
    if (text !== input.value) input.value = text;
    if (this.#isActive && (input.selectionStart !== caret || input.selectionEnd !== caret)) input.setSelectionRange(caret, caret);
    this.#judge();
    this.#say("");
  }

  get #isActive() { return this.shadowRoot.activeElement !== null; }

  // Keeps the caret within the number.
  #keepCaret = () => {
    const { selectionStart, selectionEnd } = this.#input;
    const at = this.#field.nearest(selectionStart);
    if (this.#composedFrom === null && selectionStart === selectionEnd && at !== selectionStart) this.#input.setSelectionRange(at, at);
  };

  // Some browsers tell of a caret the input, and some the document.
  #entered() {
    this.#label(); // labels may have changed
    for (const it of [this.#input, document]) it.addEventListener("selectionchange", this.#keepCaret);
  }

  #pressed(event) {
    if (this.#input.readOnly || event.isComposing) return;
    const way = historyOf(event);
    const step = { ArrowUp: 1, ArrowDown: -1 }[event.key];
    if (way !== null) this.#goes(way === "undo");
    else if (step !== undefined && !(event.ctrlKey || event.metaKey || event.altKey || event.shiftKey)) this.#steps(step);
    else return;
    event.preventDefault();
  }

  // What undo and redo would do by themselves, had the text not been written anew.
  #goes(isUndo) {
    if (this.#input.readOnly) return;
    this.#settle();
    const state = this.#history.go(isUndo, this.#before());
    if (state === undefined) return;
    this.#field.restore(state);
    this.#shows();
    this.#tell("input");
  }

  // To the next number up or down that the field takes.
  #steps(by) {
    this.#settle();
    if (this.#formatter === null || this.#field.value === null) return;
    const value = this.value || "0";
    const step = this.#decimalOf("step");
    const { below, above } = step === null ? { below: value, above: value } : neighbours(value, step, this.#decimalOf("min") ?? "0");
    const near = by > 0 ? below : above;
    const next = this.#within(plus(near, by > 0 ? (step ?? "1") : `-${step ?? "1"}`));
    if (this.value !== "" && compare(next, value) === 0) return;
    this.#history.keep(this.#before());
    this.#field.put(this.currency === null ? next : padded(next, this.#digits));
    this.#shows();
    this.#tell("input");
    this.#changed();
  }

  #within(value) {
    const [min, max] = [this.#decimalOf("min"), this.#decimalOf("max")];
    if (max !== null && compare(value, max) > 0) return max;
    return min !== null && compare(value, min) < 0 ? min : value;
  }

  // The number of an attribute; null where it has none.
  #decimalOf(name) {
    const decimal = plainOf(this.getAttribute(name) ?? "");
    return name === "step" && decimal !== null && compare(decimal, "0") <= 0 ? null : decimal;
  }

  // What the user wrote is done: it is written as it is read.
  #left() {
    for (const it of [this.#input, document]) it.removeEventListener("selectionchange", this.#keepCaret);
    this.#done();
  }

  #done() {
    this.#settle();
    if (this.#field.text !== this.#told) this.#changed();
  }

  #changed() {
    const { value } = this;
    if (value !== "") {
      this.#field.put(padded(value, this.#digits));
      if (this.#input.value !== this.#field.text) this.#input.value = this.#field.text;
    }
    this.#told = this.#field.text;
    this.#judge();
    this.#say(this.#internals.validationMessage);
    this.#tell("change");
  }

  // As Enter does in an input: by the form's first button that submits, and without one where this is the only input.
  #submit() {
    this.#done();
    const elements = [...(this.form?.elements ?? [])];
    const button = elements.find((it) => it.type === "submit");
    if (button !== undefined) button.click();
    else if (elements.filter((it) => SUBMITTING.includes(it.type)).length === 1) this.form.requestSubmit();
  }

  // Tells the form what it sends, and whether the text is a number that it takes.
  #judge() {
    const { value } = this;
    const text = this.#field.text;
    // what the browser keeps is the number, since the text may be another one in another locale
    this.#internals.setFormValue(value, value === "" ? `text ${text}` : `number ${value}`);
    this.#message.lang = pageLanguage(this);
    const [flag, message] = this.#custom === "" ? (this.#wrong(value, text) ?? []) : ["customError", this.#custom];
    this.#internals.setValidity(flag === undefined ? {} : { [flag]: true }, message, this.#input);
    this.#input.setAttribute("aria-required", String(this.required));
  }

  // What is wrong with the text, and the message that says so; undefined where it is well.
  #wrong(value, text) {
    if (value === "" && text !== "") return ["badInput", this.#fault === "" ? this.#messageOf("bad", { example: this.#example() }) : this.#messageOf("unusable", { reason: this.#fault })];
    if (value === "") return this.required ? ["valueMissing", this.#messageOf("missing", {})] : undefined;
    const [min, max] = [this.#decimalOf("min"), this.#decimalOf("max")];
    if (min !== null && compare(value, min) < 0) return ["rangeUnderflow", this.#messageOf("low", { min })];
    if (max !== null && compare(value, max) > 0) return ["rangeOverflow", this.#messageOf("high", { max })];
    const step = this.#decimalOf("step") ?? this.#smallest();
    if (step === null) return undefined;
    const { below, above } = neighbours(value, step, min ?? "0");
    return compare(below, above) === 0 ? undefined : ["stepMismatch", this.#messageOf("step", { below, above })];
  }

  // The step of amounts of which the page names none: one of the last digit of the currency.
  #smallest() {
    return this.currency === null || this.hasAttribute("step") ? null : padded("0", this.#digits).replace(/.$/, "1");
  }

  #example() {
    return this.currency === null ? EXAMPLE : this.#digits === 0 ? "1234" : padded(EXAMPLE, this.#digits);
  }

  // A message in the language of the page, or as the page's attribute has it, with these numbers.
  #messageOf(name, numbers) {
    const own = this.getAttribute(`${name}-message`);
    const language = languageOf(pageLanguage(this) || this.#opened);
    if (own === null) this.#message.lang = language;
    const text = own ?? MESSAGES[language][name];
    const written = (it) => (it === "reason" ? numbers[it] : this.#formatter.format(numbers[it]));
    return text.replace(/\{(\w+)\}/g, (all, it) => (it in numbers ? written(it) : all));
  }

  #say(message) {
    this.#message.textContent = message;
    this.#input.setAttribute("aria-invalid", String(message !== ""));
  }

  #put(value) {
    this.#field.put(value);
    this.#starts();
    if (this.#input.value !== this.#field.text) this.#input.value = this.#field.text;
    this.#judge();
    this.#say("");
  }

  /** The number as digits, as `-1234.50`; empty where there is none. */
  get value() { return this.#field.value ?? ""; }
  set value(value) {
    const text = String(value ?? "");
    if (this.#isActive && this.#isShown(text)) return;
    if (this.#opened === null) this.#open();
    this.#isTouched = true;
    this.#put(text);
  }

  // Whether a number is the one that is shown: a page that sets what it was told leaves the text, and its caret, as they are.
  #isShown(text) {
    const value = plainOf(text);
    return text === this.value || (value !== null && this.value !== "" && compare(value, this.value) === 0);
  }

  /** What is shown. */
  get text() { return this.#field.text; }

  get formatter() { return this.#formatter; }
  get locale() { return this.getAttribute("locale") || pageLanguage(this) || "en"; }
  set locale(locale) { this.setAttribute("locale", locale); }
  get currency() { return this.getAttribute("currency"); }
  set currency(code) { this.#set("currency", code); }
  get percent() { return this.hasAttribute("percent"); }
  set percent(isPercent) { this.toggleAttribute("percent", Boolean(isPercent)); }
  get required() { return this.hasAttribute("required"); }
  set required(isRequired) { this.toggleAttribute("required", Boolean(isRequired)); }
  get disabled() { return this.hasAttribute("disabled"); }
  set disabled(isDisabled) { this.toggleAttribute("disabled", Boolean(isDisabled)); }
  get readOnly() { return this.hasAttribute("readonly"); }
  set readOnly(isReadOnly) { this.toggleAttribute("readonly", Boolean(isReadOnly)); }
  get name() { return this.getAttribute("name"); }
  set name(name) { this.#set("name", name); }
  get defaultValue() { return this.getAttribute("value") ?? ""; }
  set defaultValue(value) { this.setAttribute("value", value); }
  get placeholder() { return this.getAttribute("placeholder") ?? ""; }
  set placeholder(text) { this.setAttribute("placeholder", text); }
  get min() { return this.getAttribute("min") ?? ""; }
  set min(min) { this.setAttribute("min", min); }
  get max() { return this.getAttribute("max") ?? ""; }
  set max(max) { this.setAttribute("max", max); }
  get step() { return this.getAttribute("step") ?? ""; }
  set step(step) { this.setAttribute("step", step); }
  #set(name, value) { value === null ? this.removeAttribute(name) : this.setAttribute(name, value); }

  get selectionStart() { return this.#input.selectionStart; }
  set selectionStart(at) { this.#input.selectionStart = at; }
  get selectionEnd() { return this.#input.selectionEnd; }
  set selectionEnd(at) { this.#input.selectionEnd = at; }
  setSelectionRange(...range) { this.#input.setSelectionRange(...range); }
  select() { this.#input.select(); }
  focus(options) { this.#input.focus(options); }

  get form() { return this.#internals.form; }
  get labels() { return this.#internals.labels; }
  get type() { return "number-field"; }
  get validity() { return this.#internals.validity; }
  get validationMessage() { return this.#internals.validationMessage; }
  get willValidate() { return this.#internals.willValidate; }
  checkValidity() { return this.#internals.checkValidity(); }
  reportValidity() {
    this.#say(this.#internals.validationMessage);
    return this.#internals.reportValidity();
  }
  setCustomValidity(message) {
    this.#custom = String(message);
    this.#judge();
  }

  cloneNode(isDeep) {
    const copy = super.cloneNode(isDeep);
    if (this.#isTouched) {
      copy.#open();
      copy.#field.restore(this.#field.state);
      copy.#shows();
    }
    return copy;
  }

  formDisabledCallback(isDisabled) { this.#input.disabled = isDisabled; }
  formResetCallback() {
    this.#isTouched = false;
    this.#put(this.getAttribute("value") ?? "");
  }
  // `kept` is as #judge has it, or what the browser fills in by itself.
  formStateRestoreCallback(kept, reason) {
    const [, kind, rest] = (reason === "restore" && kept.match(/^(text|number) (.*)$/s)) || [null, "text", kept];
    if (kind === "text") this.#reads(rest);
    else this.value = rest;
  }
}

if (!customElements.get("number-field")) customElements.define("number-field", NumberField);
