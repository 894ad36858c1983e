"use strict";
// Whatever a record says is shown as text: none of it becomes markup. The access token and the rows are kept in memory only, until
// somebody signs out, leaves the page, or has not used it for ten minutes.

// What a refusal means, by its code or by the status of HTTP.
const REFUSALS = {
  1: "The item is too long, or cannot be read.",
  2: "A required attribute is missing or malformed.",
  3: "There is already an item with this step ID. Propose another one below.",
  4: "The institution has no room for more items.",
  5: "There is no such item.",
  6: "The server has no institution of this name.",
  A900: "A value of the search is malformed.",
  taken: "There is already something at this path.",
  "no store": "The server keeps its rows in memory only.",
  full: "The disk is full.",
  failed: "No file can be written at this path.",
  memory: "The server has no memory for this.",
  right: "This access token may not do this.",
  401: "This token does not open this institution.",
  404: "There is nothing of this name.",
  413: "This is too large.",
};
const SIGNING_OUT = "Signing out in a minute. Press any key to stay.";

// How many rows a page shows, a request asks for, and are put in order. Times are in milliseconds.
const PAGE = 100, LONGEST = 1000, MOST = 5000;
const MINUTE = 60_000, REFRESH = MINUTE / 2, IDLE = 10 * MINUTE;

const NAME = "00100010", ID = "00100020", ACCESSION = "00080050", STUDY = "0020000D", PROCEDURE_ID = "00401001";
const STEP = "00400100", STEP_ID = "00400009", DATE = "00400002", TIME = "00400003", MODALITY = "00080060", STATION = "00400001";
const CHARACTER_SET = "00080005";
// The fields that the form keeps for the next item, and what a copy does not have: identifiers, and references to the study.
const KEPT = [MODALITY, STATION, DATE], NOT_COPIED = [STEP_ID, PROCEDURE_ID, STUDY, ACCESSION, "00081110"];

// Lists: the path, in which tags stand for values of the opened row; the attribute that each field of the search asks for; 1 if what is
// found is put in the order of the first column, -1 for newest first; the unique key after which the server can begin; and the columns
// with their tags.
const PATIENT = [["Patient", NAME], ["ID", ID]];
const PATIENT_KEYS = { name: NAME, id: ID, accession: ACCESSION };
const LISTS = {
  worklist: {
    title: "Waiting worklist items",
    path: "worklist",
    keys: { ...PATIENT_KEYS, modality: MODALITY, station: STATION, day: DATE },
    order: 1,
    columns: [["Start", DATE, TIME], ...PATIENT, ["Accession", ACCESSION], ["Modality", MODALITY], ["Station", STATION],
      ["Description", "00400007"], ["Step ID", STEP_ID]],
    actions: { Copy: copy, Change: change, Withdraw: withdraw },
  },
  steps: {
    title: "Performed procedure steps",
    path: "steps",
    columns: [["Start", "00400244", "00400245"], ["End", "00400250", "00400251"], ["State", "00400252"], ...PATIENT,
      ["Modality", MODALITY], ["Station", "00400241"], ["Step ID", "00400253"]],
  },
  studies: {
    title: "Studies",
    path: "rs/studies",
    keys: { ...PATIENT_KEYS, modality: "00080061", day: "00080020" },
    order: -1,
    unique: STUDY,
    below: "series",
    columns: [["Date", "00080020", "00080030"], ...PATIENT, ["Accession", ACCESSION], ["Modalities", "00080061"],
      ["Description", "00081030"], ["Series", "00201206"], ["Instances", "00201208"]],
  },
  series: {
    title: "Series of a study",
    path: `rs/studies/${STUDY}/series`,
    unique: "0020000E",
    below: "images",
    columns: [["Number", "00200011"], ["Modality", MODALITY], ["Date", "00080021", "00080031"], ["Body part", "00180015"],
      ["Description", "0008103E"], ["Instances", "00201209"], ["UID", "0020000E"]],
  },
  images: {
    title: "Images of a series",
    path: `rs/studies/${STUDY}/series/0020000E/instances`,
    unique: "00080018",
    columns: [["Number", "00200013"], ["Date", "00080023", "00080033"], ["Type", "00080008"], ["Rows", "00280010"],
      ["Columns", "00280011"], ["SOP class", "00080016"], ["UID", "00080018"]],
  },
};
const $ = id => document.getElementById(id);
const TABS = [...document.querySelectorAll("[role=tab]")], TABLE = document.querySelector("table");
const NARROW = matchMedia("(max-width: 40rem)"), ONE_COLUMN = matchMedia("(max-width: 64rem)");

// The token and the root of the paths that it opens; the lists down to the one that is shown; the number of the newest request of a list;
// the rows of the table as text; when somebody last used the page, and when the list was last asked for.
let session = null, views = [], newest = 0, tableText = "", lastUse = 0, lastLoad = 0;
// What the form starts from: attributes that stay unless their field is edited, and the item that is replaced.
let draft = { base: {}, replaced: null };

const create = (kind, text, more = {}) => Object.assign(document.createElement(kind), { textContent: text }, more);

function say(place, text, isBad = false) {
  if (place.textContent !== text) place.textContent = text;
  place.classList.toggle("bad", isBad);
}

// Does something, and then shows what came of it, or says at a place why not: if it is still the same session, which ends if the token
// is refused.
async function attempt(place, action, show) {
  const before = session;
  try {
    const result = await action();
    if (session === before) show(result);
  } catch (error) {
    if (session !== before) return;
    if (error.status === 401 || $("session").hidden) signOut(error.message, true);
    else say(place, error.message, true);
  }
}

// An attribute of a record or of its scheduled step.
function attribute(record, tag) {
  return [record, record[STEP]?.Value?.[0]].find(one => one?.[tag]?.Value)?.[tag] ?? {};
}

function valueText(vr, value) {
  if (vr === "PN") return (value.Alphabetic ?? value.Ideographic ?? "").replace("^", ", ").replaceAll("^", " ").trim();
  if (vr === "DA") return value.replace(/^(\d{4})(\d\d)(\d\d)$/, "$1-$2-$3");
  if (vr === "TM") return value.padEnd(4, "0").replace(/^(\d\d)(\d\d)/, "$1:$2").replace(/^(.{5})(\d\d)/, "$1:$2");
  return String(value);
}

// What attributes of a record say. Dates and times have no zone.
function textOf(record, ...tags) {
  const texts = tags.map(tag => attribute(record, tag))
    .map(({ vr, Value = [] }) => Value.filter(value => value !== null).map(value => valueText(vr, value)).join(", "));
  return texts.filter(Boolean).join(" ");
}

// An item in words, for somebody who is asked about it.
function summary(record) {
  const where = `${textOf(record, MODALITY)} at ${textOf(record, STATION)}`;
  return `${textOf(record, NAME)} (${textOf(record, ID)}), ${where}, ${textOf(record, DATE, TIME)}`;
}

// Today, as the value of a date field.
function today() {
  const now = new Date();
  return [now.getFullYear(), now.getMonth() + 1, now.getDate()].map(number => String(number).padStart(2, "0")).join("-");
}

// Asks the server, in the session that it is or was. A refusal is thrown in words.
async function ask(path, { method = "GET", body, type = "text/plain", of = session } = {}) {
  const headers = { Authorization: `Bearer ${of.key}`, ...(body && { "Content-Type": type }) };
  const signal = method === "GET" ? AbortSignal.timeout(REFRESH) : undefined;
  const answer = await fetch(of.root + path, { method, headers, body, signal, cache: "no-store" }).catch(() => {
    throw new Error("The server does not answer.");
  });
  if (answer.ok) return answer;
  const { refused } = await answer.json().catch(() => ({}));
  const text = REFUSALS[refused] ?? REFUSALS[answer.status] ?? `The server refuses this (${answer.status}).`;
  throw Object.assign(new Error(text), { status: answer.status });
}

// Rows, and whether there may be more: the server ends a page at its limit, or before that at 8 MiB, and its warning says so.
async function askRows(path, of = session) {
  const answer = await ask(path, { of });
  return { rows: answer.status === 204 ? [] : await answer.json(), isFull: /page is full/.test(answer.headers.get("Warning")) };
}

async function askBars() {
  return Object.entries(await (await ask("counts")).json()).map(([name, { kept, limit }]) => bar(name, kept, limit));
}

function bar(name, kept, limit) {
  const whole = create("label", limit ? `${name} ${kept} of ${limit}` : `${name} ${kept}`);
  if (limit) whole.append(create("meter", "", { max: limit, high: 0.9 * limit, optimum: 0, value: kept }));
  return whole;
}

const sayWhen = () => $("when").textContent = `as of ${new Date().toLocaleTimeString([], { timeStyle: "medium" })}`;

// Lists

// The key of names that have these words in this order: `DOE, JANE` finds DOE^JANE. The server ignores the case of ASCII letters only,
// so that of others is asked for in several ways.
function nameKey(text) {
  const words = text.split(/[\s,^\\]+/).filter(Boolean), isAscii = /^[ -~]*$/.test(text);
  const capital = word => word[0].toUpperCase() + word.slice(1).toLowerCase();
  const cases = isAscii ? [word => word] : [word => word, word => word.toLowerCase(), word => word.toUpperCase(), capital];
  return words.length ? [...new Set(cases.map(inCase => `*${words.map(inCase).join("*")}*`))].join("\\") : "";
}

// What the fields of the search ask for, and the days in words.
function readSearch() {
  const fields = [...new FormData($("search"))].map(([name, value]) => [name, value.trim()]);
  const { name, modality, from, to, ...exact } = Object.fromEntries(fields);
  const day = from || to ? `${from}-${to}`.replace(/(\d{4})-(\d\d)-(\d\d)/g, "$1$2$3") : "";
  const days = from === to ? from : [from && `from ${from}`, to && `to ${to}`].filter(Boolean).join(" ");
  return { ...exact, name: nameKey(name), modality: modality.toUpperCase(), day, days };
}

// The attributes that a view's search asks for, each with its key.
function searchKeys({ list, search }) {
  return Object.entries(LISTS[list].keys ?? {}).map(([field, tag]) => [tag, search[field]]).filter(([, key]) => key);
}

// The path of some rows of a view, behind so many of which this is the last. The server finds rows after a key at once, and walks over
// those of an offset.
function rowsPath(view, limit, offset, last) {
  const path = LISTS[view.list].path.replace(/\d{7}[DE]/g, tag => encodeURIComponent(textOf(view.above, tag)));
  const { unique } = LISTS[view.list], start = unique && last ? ["after", textOf(last, unique)] : ["offset", offset];
  const words = [["limit", limit], start, ...searchKeys(view)].map(([name, value]) => `${name}=${encodeURIComponent(value)}`);
  return `${path}?${words.join("&")}`;
}

// What a view's search finds, MOST and the rest of a request at most, in the order of the first column. A record without an attribute
// meets every key of it (PS3.4 section C.2.2.2): here such records are left out.
async function askInOrder(view) {
  const { order, columns: [[, ...tags]] } = LISTS[view.list], rows = [];
  let part = {};
  do {
    part = await askRows(rowsPath(view, LONGEST, rows.length, rows.at(-1)));
    rows.push(...part.rows);
  } while (part.isFull && rows.length < MOST);
  const found = rows.filter(row => searchKeys(view).every(([tag]) => textOf(row, tag)));
  const pairs = found.map(row => [textOf(row, ...tags), row]).sort(([a], [b]) => order * ((a > b) - (a < b)));
  return { all: pairs.map(([, row]) => row), of: !part.isFull ? ` of ${found.length}` : ". There are more: narrow the search." };
}

// The rows of the page that a view shows, whether there is another, and of how many they are. Lists that nobody searches stay in the
// order of the server, but for the worklist.
async function askPage(view) {
  const { list, offset, last } = view;
  if (list === "worklist" || searchKeys(view).length) {
    const { all, of } = await askInOrder(view);
    return { rows: all.slice(offset, offset + PAGE), isMore: all.length > offset + PAGE, of };
  }
  const { rows, isFull } = await askRows(rowsPath(view, PAGE + 1, offset, last));
  return { rows: rows.slice(0, PAGE), isMore: isFull, of: "" };
}

function load() {
  const view = views.at(-1), number = ++newest;
  lastLoad = Date.now();
  return attempt($("state"), async () => [await askPage(view), await askBars()], ([page, bars]) => {
    // (another list may be chosen by now)
    if (number !== newest) return;
    showPage(view, page);
    $("counts").replaceChildren(...bars);
    sayWhen();
    say($("state"), "");
  });
}

function showPage(view, { rows, isMore, of }) {
  const { title, keys } = LISTS[view.list], text = JSON.stringify([views.length, view.list, rows]);
  view.end = view.offset + rows.length;
  view.next = rows.at(-1) ?? view.last;
  say($("range"), rows.length ? `${view.offset + 1} to ${view.end}${of}` : "Nothing found");
  $("back").disabled = view.offset === 0;
  $("next").disabled = !isMore;
  $("finding").hidden = !keys;
  $("up").hidden = views.length === 1;
  TABLE.caption.textContent = [title, view.search?.days, views[1] && textOf(views[1].above, NAME)].filter(Boolean).join(", ");
  // (rows that did not change keep the focus, and what is marked in them)
  if (text !== tableText) drawTable(view.list, rows);
  tableText = text;
}

// Draws rows. The focus stays at a button of the same name.
function drawTable(list, rows) {
  const { columns, actions } = LISTS[list], heads = create("tr", "", { role: "row" });
  const nameOf = button => button.ariaLabel ?? button.textContent;
  const focused = TABLE.contains(document.activeElement) && nameOf(document.activeElement);
  for (const [name] of actions ? [...columns, ["Actions"]] : columns) {
    heads.append(create("th", name, { scope: "col", role: "columnheader" }));
  }
  TABLE.tHead.replaceChildren(heads);
  TABLE.tBodies[0].replaceChildren(...rows.map(record => row(list, record)));
  const buttons = [...TABLE.querySelectorAll("button")];
  if (focused !== false) (buttons.find(button => nameOf(button) === focused) ?? buttons[0] ?? $("again")).focus();
}

function cell(name, parts) {
  const whole = create("td", "", { role: "cell" });
  whole.dataset.label = name;
  whole.append(...parts.flatMap((part, at) => at ? [" ", part] : [part]));
  return whole;
}

function row(list, record) {
  const { columns, below, actions = {} } = LISTS[list], whole = create("tr", "", { role: "row" });
  const parts = tags => tags.map(tag => textOf(record, tag)).filter(Boolean).map(text => create("span", text));
  whole.append(...columns.map(([name, ...tags]) => cell(name, parts(tags))));
  if (below) {
    const first = whole.firstChild, button = create("button", "", { className: "deeper" });
    button.append(...first.textContent ? first.childNodes : ["Open"]);
    first.append(button);
    // (somebody who marks text to copy it opens nothing)
    whole.onclick = ({ target }) => (button.contains(target) || getSelection().isCollapsed) &&
      go(() => views.push({ list: below, above: record, offset: 0, earlier: [] }));
  }
  const buttons = Object.entries(actions).map(([name, act]) =>
    create("button", name, { onclick: () => act(record), ariaLabel: `${name} ${textOf(record, STEP_ID)}` }));
  if (buttons.length) whole.append(cell("Actions", buttons));
  return whole;
}

// Goes to another list or another page.
function go(move) {
  move();
  load();
}

// Goes on behind the rows that are shown, which may be fewer than PAGE. Until the next ones are, pressing again changes nothing.
function goNext() {
  const view = views.at(-1), { offset, last, end = offset, next } = view;
  if (end > offset) view.earlier.push({ offset, last });
  go(() => Object.assign(view, { offset: end, last: next }));
}

function goBack() {
  const view = views.at(-1);
  go(() => Object.assign(view, view.earlier.pop() ?? { offset: 0, last: undefined }));
}

function select(tab) {
  for (const one of TABS) {
    one.ariaSelected = String(one === tab);
    one.tabIndex = one === tab ? 0 : -1;
  }
  $("institution").classList.toggle("entering", tab === $("new"));
}

function choose(tab) {
  select(tab);
  if (tab === $("new")) return;
  const { keys } = LISTS[tab.id];
  views = [{ list: tab.id }];
  $("panel").setAttribute("aria-labelledby", tab.id);
  $("search").reset();
  $("finding").open = !NARROW.matches;
  $("search").elements.station.labels[0].hidden = !keys?.station;
  searchDay(keys ? today() : "");
}

// Searches one day, or all days where it is empty.
function searchDay(day) {
  for (const name of ["from", "to"]) $("search").elements[name].value = day;
  search();
}

function search() {
  views = [{ list: views[0].list, offset: 0, earlier: [], search: readSearch() }];
  load();
}

// Items

// Asks somebody before it does something.
function question(text, label, action) {
  $("asked").textContent = text;
  $("yes").textContent = label;
  $("yes").onclick = () => {
    $("question").close();
    action();
  };
  $("question").showModal();
}

// Withdraws an item, if it still waits and is as it was shown: else another may have its step ID by now.
async function remove(record, of) {
  const id = textOf(record, STEP_ID), { rows } = await askRows(`worklist?ScheduledProcedureStepID=${encodeURIComponent(id)}`, of);
  if (JSON.stringify(rows.find(one => textOf(one, STEP_ID) === id)) !== JSON.stringify(record)) {
    throw new Error(`${id} was started, changed or withdrawn meanwhile. Look at the list again.`);
  }
  // (a slash stands as it is: the front refuses %2F in a path)
  await ask(`worklist/${encodeURIComponent(id).replaceAll("%2F", "/")}`, { method: "DELETE", of });
}

function post(record, of) {
  return ask("worklist", { method: "POST", body: entryOctets(record), type: "application/dicom", of });
}

// Schedules one item in place of another, all in one session. If that is refused, the other is scheduled again.
async function replace(old, record, of = session) {
  await remove(old, of);
  try {
    await post(record, of);
  } catch (error) {
    await post(old, of).catch(() => {
      if (draft.replaced === old) draft.replaced = null;
      throw new Error(`${error.message} ${textOf(old, STEP_ID)} is withdrawn: schedule it again.`);
    });
    throw error;
  }
}

function withdraw(record) {
  const id = textOf(record, STEP_ID);
  question(`Withdraw ${id}: ${summary(record)}?\nModalities will no longer find it.`, "Withdraw", () =>
    attempt($("state"), () => remove(record), () => load().then(() => say($("state"), `${id} is withdrawn.`))));
}

// A copy has all attributes of an item but its own.
function copy(record) {
  const without = item => Object.fromEntries(Object.entries(item).filter(([tag]) => !NOT_COPIED.includes(tag)));
  edit({ ...without(record), [STEP]: { vr: "SQ", Value: record[STEP].Value.map(without) } });
}

function change(record) {
  edit(record, record);
}

// Shows a record in the form, which is a tab if the window has one column.
function edit(record, replaced = null) {
  if (JSON.stringify(record).includes("\uFFFD")) {
    say($("state"), "This item has text that the page cannot read. It would be lost in a copy or a change.", true);
    return;
  }
  begin(record, replaced);
  if (ONE_COLUMN.matches) select($("new"));
  $("entry").elements[DATE].focus();
}

// The form

const formFields = () => [...$("entry").elements].filter(({ name }) => name);

// What a field shows of a record.
function fieldValue(record, { name, type }) {
  const { Value: [first] = [] } = attribute(record, name), parts = attribute(record, NAME).Value?.[0]?.Alphabetic?.split("^") ?? [];
  if (name === "family" || name === "given") return parts[name === "family" ? 0 : 1] ?? "";
  return type === "select-one" ? first ?? "" : textOf(record, name).slice(0, type === "time" ? 8 : undefined);
}

// Begins an item with the attributes of a record, each of which stays unless its field is edited.
function begin(base = {}, replaced = null) {
  draft = { base, replaced };
  $("heading").textContent = replaced ? `Change ${textOf(replaced, STEP_ID)}` : "New worklist item";
  $("send").textContent = replaced ? "Change" : "Schedule";
  $("clear").textContent = replaced ? "Cancel" : "Clear";
  for (const field of formFields()) {
    const value = fieldValue(base, field);
    if (value || !KEPT.includes(field.name)) field.value = value;
    field.dataset.before = value && field.value;
    field.ariaInvalid = "false";
  }
  say($("answer"), "");
  $("entry").elements[DATE].value ||= today();
  if (!replaced) propose();
}

function put(record, tag, vr, value) {
  if (value) record[tag] = { vr, Value: [vr === "PN" ? { Alphabetic: value } : value] };
  else delete record[tag];
}

// The record that the form makes. What was not edited stays as the base has it, with middle names and further values.
function readForm() {
  const record = structuredClone(draft.base), step = record[STEP]?.Value?.[0] ?? {}, { family, given } = $("entry").elements;
  const stays = ({ value, dataset: { before } }, tag) => value === before && (tag in record || tag in step);
  record[STEP] = { vr: "SQ", Value: [step] };
  for (const field of formFields()) {
    const { name, value, dataset: { vr, step: ofStep } } = field;
    const text = /DA|TM/.test(vr) ? value.replace(/[-:]/g, "") : vr === "CS" ? value.trim().toUpperCase() : value.trim();
    if (vr && !stays(field, name)) put(ofStep === undefined ? record : step, name, vr, text);
  }
  if (!stays(family, NAME) || !stays(given, NAME)) {
    put(record, NAME, "PN", `${family.value.trim()}^${given.value.trim()}`.replace(/\^$/, ""));
  }
  return record;
}

// Whether all fields are well formed. It names the first that is not, and goes there.
function areGood(fields, place) {
  const isMissing = ({ required, value, validity }) => required && !value.trim() && !validity.badInput;
  const wrong = fields.find(field => isMissing(field) || !field.validity.valid || field.value.includes("\\"));
  for (const field of fields) field.ariaInvalid = String(field === wrong);
  if (!wrong) return true;
  const name = wrong.labels[0].firstChild.textContent.trim(), details = wrong.closest("details");
  say(place, isMissing(wrong) ? `${name} is missing.` : `${name} is malformed${wrong.title && `: ${wrong.title}`}.`, true);
  if (details) details.open = true;
  wrong.focus();
  return false;
}

function send() {
  if (!areGood(formFields(), $("answer"))) return;
  const record = readForm(), { replaced } = draft;
  if (!replaced) return schedule(record, () => post(record));
  const text = `Change ${textOf(replaced, STEP_ID)}: ${summary(replaced)}?\nIt is withdrawn, and scheduled anew: ${summary(record)}.`;
  question(text, "Change", () => schedule(record, () => replace(replaced, record)));
}

// Gives an order for a record, once, and begins the next item.
function schedule(record, order) {
  $("send").disabled = true;
  attempt($("answer"), () => order().finally(() => $("send").disabled = false), () => {
    begin();
    say($("answer"), `${textOf(record, STEP_ID)} is scheduled: ${summary(record)}.`);
    $("entry").elements.family.focus();
    load();
  });
}

// A UID of a random UUID (PS3.5 section B.2, RFC 9562 section 5.4).
function newUid() {
  const octets = crypto.getRandomValues(new Uint8Array(16));
  octets[6] = octets[6] & 15 | 64;
  octets[8] = octets[8] & 63 | 128;
  return `2.25.${octets.reduce((number, octet) => number << 8n | BigInt(octet), 0n)}`;
}

// Proposes identifiers of the day and five digits and letters, without letters that look like digits.
function propose() {
  const signs = [...crypto.getRandomValues(new Uint8Array(5))].map(octet => "0123456789ABCDEFGHJKMNPQRSTVWXYZ"[octet & 31]);
  const word = `${today().slice(2).replaceAll("-", "")}-${signs.join("")}`, { elements } = $("entry");
  elements[STEP_ID].value = `S${word}`;
  elements[PROCEDURE_ID].value = `R${word}`;
  elements[STUDY].value = newUid();
}

// Data sets

const utf8 = text => new TextEncoder().encode(text);
const little = (number, width) => Array.from({ length: width }, (_, at) => number >> 8 * at & 255);
const tagOctets = tag => [2, 0, 6, 4].map(at => parseInt(tag.slice(at, at + 2), 16));
const nameText = name => ["Alphabetic", "Ideographic", "Phonetic"].map(group => name[group] ?? "").join("=").replace(/=+$/, "");

// The octets of the values of an attribute, given as JSON (PS3.18 annex F).
function valueOctets(vr, values) {
  if (vr === "SQ") return values.map(dataSet).flatMap(item => [...tagOctets("FFFEE000"), ...little(item.length, 4), ...item]);
  if (vr === "US") return values.flatMap(value => little(value, 2));
  return utf8(values.map(value => vr === "PN" && value ? nameText(value) : value ?? "").join("\\"));
}

// An element in Explicit VR Little Endian (PS3.5 section 7.1.2).
function element([tag, { vr, Value }]) {
  const octets = valueOctets(vr, Value), value = octets.length % 2 ? [...octets, vr === "UI" ? 0 : 32] : octets;
  const length = vr === "SQ" ? [0, 0, ...little(value.length, 4)] : little(value.length, 2);
  return [...tagOctets(tag), ...utf8(vr), ...length, ...value];
}

function dataSet(record) {
  return Object.entries(record).filter(([, { Value }]) => Value?.length).sort(([a], [b]) => a < b ? -1 : 1).flatMap(element);
}

// The octets of an item of the worklist, whose text is ASCII or UTF-8.
function entryOctets({ [CHARACTER_SET]: _, ...record }) {
  if (/[^ -~]/.test(JSON.stringify(record))) put(record, CHARACTER_SET, "CS", "ISO_IR 192");
  return new Uint8Array(dataSet(record));
}

// The operator's page

const askMetrics = async () => (await ask("metrics")).text();

// Shows the metrics but a histogram's buckets. Rows are bars.
function showMetrics(text) {
  const lines = text.matchAll(/^newtiron_(\w+)(?:\{(.*)\})? (\S+)$/gm);
  const samples = [...lines].filter(([, name]) => !name.endsWith("_bucket"))
    .map(([, name, labels = "", number]) => ({ name, of: labels.replace(/\w+="(.*?)"/g, "$1").replaceAll(",", " "), number }));
  const named = (name, of) => samples.filter(one => one.name === name && (of ?? one.of) === one.of);
  const rest = samples.filter(({ name }) => !name.startsWith("rows"));
  $("counts").replaceChildren(...named("rows").map(({ of, number }) => bar(of, number, named("rows_limit", of)[0]?.number)));
  $("metrics").replaceChildren(...rest.flatMap(({ name, of, number }) =>
    [create("dt", `${name.replaceAll("_", " ")} ${of}`), create("dd", number)]));
  sayWhen();
}

function copyRows() {
  const order = { method: "POST", body: $("path").value };
  if (areGood([$("path")], $("copied"))) attempt($("copied"), () => ask("backup", order), () => say($("copied"), "All rows are copied."));
}

// Sessions

function signIn() {
  const name = $("name").value.trim().toUpperCase(), isOperator = name === "*";
  session = { key: $("key").value.trim(), root: isOperator ? "/" : `/${encodeURIComponent(name)}/` };
  attempt($("state"), isOperator ? askMetrics : askBars, answer => {
    $("key").value = "";
    $("who").textContent = isOperator ? "Operator" : name;
    $("opening").hidden = true;
    for (const id of ["session", isOperator ? "operation" : "institution"]) $(id).hidden = false;
    say($("state"), "");
    noteUse();
    if (isOperator) showMetrics(answer);
    else choose($("worklist"));
    $(isOperator ? "measure" : "worklist").focus();
  });
}

// Forgets the token and everything that was shown, and asks for the token again.
function signOut(why = "", isBad = false) {
  session = null;
  views = [];
  newest++;
  tableText = "";
  for (const form of ["search", "entry", "backup"]) $(form).reset();
  begin();
  $("question").close();
  $("yes").onclick = null;
  const places = ["counts", "metrics", "range", "when", "who", "asked", "copied"].map($);
  for (const place of [TABLE.caption, TABLE.tHead, TABLE.tBodies[0], ...places]) place.replaceChildren();
  for (const id of ["session", "institution", "operation"]) $(id).hidden = true;
  $("opening").hidden = false;
  $("key").value = "";
  ($("name").value ? $("key") : $("name")).focus();
  say($("state"), why, isBad);
}

function noteUse() {
  lastUse = Date.now();
  if ($("state").textContent === SIGNING_OUT) say($("state"), "");
}

// Ends a session that nobody uses, and else asks for the list again from time to time.
function tick() {
  const now = Date.now();
  if ($("session").hidden) return;
  if (now - lastUse >= IDLE) signOut("Signed out after ten minutes without use. Enter the access token again.");
  else if (now - lastUse >= IDLE - MINUTE) say($("state"), SIGNING_OUT);
  else if (!document.hidden && views.length && now - lastLoad >= REFRESH) load();
}

for (const tab of TABS) {
  tab.onclick = () => choose(tab);
  tab.onkeydown = ({ key }) => {
    const visible = TABS.filter(one => one.offsetParent), at = visible.indexOf(tab);
    const other = visible.at((at + (key === "ArrowRight") - (key === "ArrowLeft")) % visible.length);
    if (other === tab) return;
    other.focus();
    choose(other);
  };
}
for (const [id, action] of Object.entries({ opening: signIn, search, entry: send, backup: copyRows })) {
  $(id).onsubmit = event => {
    event.preventDefault();
    action();
  };
}
for (const [id, action] of Object.entries({
  out: () => signOut("Signed out."), today: () => searchDay(today()), days: () => searchDay(""), propose, clear: () => begin(),
  up: () => go(() => views.pop()), back: goBack, next: goNext,
  again: load, measure: () => attempt($("state"), askMetrics, showMetrics), no: () => $("question").close(),
})) $(id).onclick = action;
for (const kind of ["keydown", "pointerdown", "wheel"]) addEventListener(kind, noteUse, { capture: true, passive: true });
document.onvisibilitychange = tick;
onpagehide = () => signOut();
// (in a wide window the form is no tab, and the search is always open)
ONE_COLUMN.onchange = () => $("new").ariaSelected === "true" && choose($("worklist"));
NARROW.onchange = () => $("finding").open = !NARROW.matches;
setInterval(tick, 1000);
signOut("Enter the name of an institution and its access token.");
