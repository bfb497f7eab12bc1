"use strict";
// Shows what the bridge tells at /events, and posts what a person asks for. All text goes in by textContent.

const find = (id) => document.getElementById(id);
const start = find("start");
const look = find("look").elements;
const LIVING = ["PENDING", "ACTIVE"];
// How many sessions and bills are shown where a filter looks at all of them, and after how long it looks again.
const MOST_FILTERED = 200;
const LOOK_AGAIN = 2000;
let shown = {};
// All sessions and bills, while there is a filter, and the order whose outcome the message tells once it is there.
let all = null;
let awaited = null;

const partyOf = (object) => `${object.country_code}/${object.party_id}`;
// The other party of a session or a bill: its provider at an operator, and its operator at a provider.
const partnerOf = (object) => partyOf(shown.is_operator ? object.cdr_token : object);
const momentOf = (text) => new Date(text).toLocaleString("sv-SE");
const energyOf = (kilowattHours) => `${Number(kilowattHours).toFixed(4)} kWh`;
const costOf = (price, currency) => price ? `${Number(price.excl_vat).toFixed(4)} ${currency}` : "";
const wordsOf = (word) => word ? word.replaceAll("_", " ").toLowerCase() : "";
const aboutOf = (command) => command.body.evse_uid || command.body.location_id || command.body.session_id ||
  command.body.reservation_id || "";

function durationOf(begun, ended) {
  const minutes = Math.max(0, Math.floor((new Date(ended) - new Date(begun)) / 60_000));
  return `${Math.floor(minutes / 60)}:${String(minutes % 60).padStart(2, "0")} h`;
}

// What a kWh cost on the average.
function priceOf(price, kilowattHours, currency) {
  const energy = Number(kilowattHours);
  return price && energy > 0 ? `${(Math.abs(price.excl_vat) / energy).toFixed(4)} ${currency}/kWh` : "";
}

function tell(text, isRefusal) {
  const message = find("message");
  message.textContent = text;
  message.classList.toggle("refusal", isRefusal);
}

// Posts a request to the bridge, and tells what became of it. Of an order the message becomes its outcome, when that is
// told.
async function post(path, body, done) {
  awaited = null;
  try {
    const response = await fetch(path, {
      method: "POST", headers: { "Content-Type": "application/json" }, body: JSON.stringify(body) });
    const answer = await response.json();
    const asked = answer.charge_point ? `. Its charge point says: ${answer.charge_point}` : "";
    tell(response.ok ? done + asked : answer.error, !response.ok);
    if (response.ok && path === "orders" && answer.packets.length > 0) {
      awaited = answer.packets[0].request;
      tellOutcome();
    }
  } catch (fault) {
    tell(`The bridge does not answer: ${fault.message}`, true);
  }
}

// Tells what became of the last order, as far as it is known.
function tellOutcome() {
  const command = awaited !== null && shown.commands.find((one) => one.number === awaited);
  if (!command || !command.response) return;
  const outcome = command.response !== "ACCEPTED" ? command.response : command.result;
  const words = outcome ? wordsOf(outcome) : `${command.operator} takes it, and asks the charge point`;
  tell(`${wordsOf(command.kind)}, ${aboutOf(command)}: ${words}`, Boolean(outcome) && outcome !== "ACCEPTED");
  if (outcome) awaited = null;
}

// Posts after a question that a person says yes to.
function ask(question, path, body, done) {
  if (window.confirm(question)) post(path, body, done);
}

// An id, and a button that copies it.
function copied(id) {
  const element = document.createElement("span");
  const code = document.createElement("code");
  code.textContent = id;
  element.append(code, button("Copy", `Copy ${id}`, async () => {
    window.getSelection().selectAllChildren(code);
    try {
      await navigator.clipboard.writeText(id);
      tell(`${id} is copied`, false);
    } catch (fault) {
      tell(`It is marked, and has to be copied by hand: ${fault.message}`, true);
    }
  }));
  return element;
}

function badge(word) {
  const element = document.createElement("span");
  element.className = `badge ${word}`;
  element.textContent = wordsOf(word);
  return element;
}

function button(words, label, press) {
  const element = document.createElement("button");
  element.type = "button";
  element.textContent = words;
  element.setAttribute("aria-label", label);
  element.addEventListener("click", press);
  return element;
}

// Makes a table have these rows, each of a key and cells. A cell is a text, or a number's text to be set at the right,
// or makes an element. A row that says the same as before stays as it is, so that no focus is lost.
function fill(id, rows) {
  const body = find(id);
  const filter = look.filter.value.toLowerCase();
  rows = rows.filter(({ cells }) => cells.some((cell) =>
    (cell instanceof Node ? cell.textContent : cell.number ?? cell).toLowerCase().includes(filter)));
  const old = new Map(Array.from(body.rows, (row) => [row.dataset.key, row]));
  const wanted = rows.map(({ key, says, cells }) => {
    const before = old.get(key);
    const said = JSON.stringify(says);
    if (before && before.dataset.says === said) return before;
    const row = document.createElement("tr");
    row.dataset.key = key;
    row.dataset.says = said;
    for (const cell of cells) {
      const data = row.insertCell();
      if (cell instanceof Node) data.append(cell);
      else if (typeof cell === "object") {
        data.className = "number";
        data.textContent = cell.number;
      } else data.textContent = cell;
    }
    return row;
  });
  if (wanted.length === 0) {
    const row = document.createElement("tr");
    const data = row.insertCell();
    data.colSpan = 12;
    data.className = "none";
    data.textContent = "none";
    wanted.push(row);
  }
  if (wanted.length !== body.rows.length || wanted.some((row, index) => row !== body.rows[index])) {
    body.replaceChildren(...wanted);
  }
}

// Makes a choice have these options, each of a value and a text, and keeps what is chosen.
function offer(select, options) {
  const said = JSON.stringify(options);
  if (select.dataset.says === said) return;
  const chosen = select.value;
  select.dataset.says = said;
  select.replaceChildren(...options.map(([value, text]) => new Option(text, value)));
  if (options.some(([value]) => value === chosen)) select.value = chosen;
}

// The buttons that change whether an EVSE is in service, or end what stands there. Where nothing can be charged, nobody
// sees which it is: both.
function evseButtons(evse) {
  const service = (inService, told) =>
    ["service", { evse_uid: evse.uid, in_service: inService }, `${evse.uid} is ${told}`];
  const buttons = document.createElement("span");
  if (evse.status !== "INOPERATIVE") {
    const words = "Take out of service";
    buttons.append(button(words, `${words}: ${evse.uid}`, () => ask(
      `Take ${evse.uid} out of service? Nobody can charge there until you put it back.`,
      ...service(false, "out of service"))));
  }
  if (["INOPERATIVE", "OUTOFORDER"].includes(evse.status)) {
    const words = "Put into service";
    buttons.append(button(words, `${words}: ${evse.uid}`, () => post(...service(true, "in service"))));
  }
  buttons.append(button("Fault", `Fault: ${evse.uid}`, () => ask(
    `End what stands at ${evse.uid} by its last reading? Do so only if its charge point will never tell of the end.`,
    "faults", { evse_uid: evse.uid }, `What stood at ${evse.uid} has ended`)));
  return buttons;
}

function showEvses() {
  fill("evses", shown.evses.map((evse) => {
    const session = evse.session;
    return { key: evse.uid, says: evse, cells: [
      evse.uid, evse.location, badge(evse.status), session ? badge(session.status) : "",
      session ? session.cdr_token.uid : "", { number: session ? energyOf(session.kwh) : "" },
      { number: session ? costOf(session.total_cost, session.currency) : "" },
      evseButtons(evse)] };
  }));
}

function showChargePoints() {
  fill("charge_points", shown.charge_points.flatMap((point) => point.connectors.map((connector) => ({
    key: `${point.id} ${connector.connector}`, says: [point, connector], cells: [
      point.id, point.connected ? "connected" : "away", point.last_message ? momentOf(point.last_message) : "none",
      String(connector.connector), connector.evse_uid, connector.status || "none",
      [point.error, connector.error].filter((error) => error && error !== "NoError").join(", ") || "none",
      connector.in_service ? "in service" : "out of service"] }))));
}

function showPartners() {
  fill("partners", shown.partners.map((partner) => ({ key: partner.party, says: partner, cells: [
    partner.party, partner.kind, badge(partner.state), { number: String(partner.waiting) },
    partner.versions_url || ""] })));
}

function showWarnings() {
  fill("warnings", shown.warnings.map((warning) => ({
    key: `${warning.at} ${warning.evse_uid} ${warning.text}`, says: warning,
    cells: [momentOf(warning.at), warning.evse_uid, warning.text] })));
}

function showSessions() {
  fill("sessions", (all || shown).sessions.map((session) => {
    const cells = [momentOf(session.start_date_time), session.evse_uid, partnerOf(session), session.cdr_token.uid,
      badge(session.status),
      { number: durationOf(session.start_date_time, session.end_date_time || session.last_updated) },
      { number: energyOf(session.kwh) }, { number: priceOf(session.total_cost, session.kwh, session.currency) },
      { number: costOf(session.total_cost, session.currency) }];
    const stop = () => post("orders", { operator: partyOf(session), order: "stop_session", session_id: session.id },
      `The session at ${session.evse_uid} was asked to stop`);
    if (!shown.is_operator) {
      const words = `Stop the session at ${session.evse_uid}`;
      cells.push(LIVING.includes(session.status) ? button("Stop", words, stop) : "");
    }
    cells.push(copied(session.id));
    return { key: `${partyOf(session)} ${session.id}`, says: session, cells };
  }));
}

function showBills() {
  const cdrs = (all || shown).cdrs;
  const credited = new Set(cdrs.filter((cdr) => cdr.credit).map((cdr) => cdr.credit_reference_id));
  fill("cdrs", cdrs.map((cdr) => {
    const isCredited = credited.has(cdr.id);
    const kind = cdr.credit ? "credit" : isCredited ? "bill, taken back" : "bill";
    const cost = costOf(cdr.total_cost, cdr.currency);
    const cells = [momentOf(cdr.end_date_time), cdr.cdr_location.evse_uid, partnerOf(cdr), cdr.cdr_token.uid, kind,
      { number: durationOf(cdr.start_date_time, cdr.end_date_time) }, { number: energyOf(cdr.total_energy) },
      { number: priceOf(cdr.total_cost, cdr.total_energy, cdr.currency) }, { number: cost }];
    const credit = () => ask(`Take back the bill of ${cost}? This cannot be undone, and no second bill can be made.`,
      "credits", { session_id: cdr.session_id }, "The bill was taken back");
    if (shown.is_operator) {
      cells.push(cdr.credit || isCredited ? "" : button("Take back", `Take back the bill of ${cost}`, credit));
    }
    cells.push(copied(cdr.id), copied(cdr.session_id));
    return { key: `${partyOf(cdr)} ${cdr.id}`, says: [cdr, isCredited], cells };
  }));
}

// The connectors of all operators, as these tell them: those that are free first.
function showOffers() {
  fill("offers", shown.offers.map((offer) => {
    const price = typeof offer.price === "number" ? `${offer.price.toFixed(4)} ${offer.currency}/kWh` : "";
    const connector = [offer.connector_id, offer.standard && `(${offer.standard})`].filter(Boolean).join(" ");
    return {
      key: `${offer.operator} ${offer.location_id} ${offer.evse_uid} ${offer.connector_id}`, says: offer, cells: [
        offer.evse_uid, offer.operator, offer.location, badge(offer.status), connector,
        { number: offer.kw ? `${offer.kw} kW` : "" }, { number: price + (offer.has_more ? " and more" : "") },
        offer.status === "AVAILABLE" ? button("Choose", `Choose ${offer.evse_uid}`, () => choose(offer)) : ""] };
  }));
}

// Enters an offer into the form.
function choose(offer) {
  const chosen = { operator: offer.operator, location: offer.location_id, evse: offer.evse_uid,
    connector: offer.connector_id };
  for (const [name, value] of Object.entries(chosen)) {
    start.elements[name].value = value;
    showChoices();
  }
  start.elements.token.focus();
}

function showProvider() {
  showOffers();
  fill("owed", shown.owed.map((owed) => ({
    key: `${owed.operator} ${owed.currency}`, says: owed,
    cells: [owed.operator, { number: costOf({ excl_vat: owed.amount }, owed.currency) }] })));
  fill("tokens", shown.tokens.map((token) => ({
    key: `${token.type} ${token.uid}`, says: token,
    cells: [token.uid, token.type, token.contract_id, token.issuer, token.whitelist, token.valid ? "yes" : "no"] })));
  fill("commands", shown.commands.map((command) => ({
    key: String(command.number), says: command,
    cells: [command.at ? momentOf(command.at) : "", String(command.number), wordsOf(command.kind), command.operator,
      aboutOf(command), wordsOf(command.response), wordsOf(command.result), cancelButton(command)] })));
  showChoices();
  tellOutcome();
}

// The button that cancels a reservation which was made.
function cancelButton(command) {
  if (command.kind !== "reserve_now" || command.result !== "ACCEPTED") return "";
  const id = command.body.reservation_id;
  return button("Cancel", `Cancel the reservation ${id}`, () => post("orders",
    { operator: command.operator, order: "cancel_reservation", reservation_id: id },
    `The reservation ${id} was asked to be cancelled`));
}

// Offers the operators, the places of the chosen one, the EVSEs of the chosen place with their connectors, and the
// tokens.
function showChoices() {
  const { operator, location, evse, connector, token } = start.elements;
  offer(operator, shown.operators.map((node) => [node.party, node.party]));
  const site = shown.operators.find((node) => node.party === operator.value)?.site;
  offer(location, (site?.locations || []).map((place) => [place.id, `${place.address}, ${place.city}`]));
  const place = site?.locations.find((one) => one.id === location.value);
  const statusOf = (uid) => wordsOf(shown.offers.find((one) => one.operator === operator.value &&
    one.location_id === location.value && one.evse_uid === uid)?.status);
  offer(evse, (place?.evses || []).map((one) => [one.uid, `${one.uid} (${one.evse_id}) ${statusOf(one.uid)}`.trim()]));
  const connectors = place?.evses.find((one) => one.uid === evse.value)?.connectors || [];
  offer(connector, connectors.map((one) => [one.id, `${one.id} (${one.standard})`]));
  offer(token, shown.tokens.map((one) => [JSON.stringify([one.uid, one.type]), `${one.uid} (${one.type})`]));
}

// The totals of the chosen day, as this browser's time zone has it.
async function showTotals() {
  const [year, month, day] = look.day.value.split("-").map(Number);
  if (!day) return;
  const query = new URLSearchParams({ date_from: new Date(year, month - 1, day).toISOString(),
    date_to: new Date(year, month - 1, day + 1).toISOString() });
  const totals = await (await fetch(`totals?${query}`)).json();
  fill("totals", totals.map((total) => ({ key: total.currency, says: total, cells: [
    total.currency, { number: String(total.bills) }, { number: String(total.credits) },
    { number: energyOf(total.kwh) }, { number: costOf(total, total.currency) }] })));
}

// While there is a filter, all sessions and bills are looked at, and not the newest alone.
async function lookAtAll() {
  const said = look.filter.value.toLowerCase();
  if (!said) {
    all = null;
    return;
  }
  const fits = (one) => JSON.stringify([Object.values(one), partnerOf(one)]).toLowerCase().includes(said);
  const [sessions, cdrs] = await Promise.all(["sessions", "cdrs"].map(async (path) => (await fetch(path)).json()));
  all = { sessions: sessions.filter(fits).slice(0, MOST_FILTERED), cdrs: cdrs.filter(fits).slice(0, MOST_FILTERED) };
}

let lookingAt = 0;
async function changeFilter() {
  const number = ++lookingAt;
  await lookAtAll();
  if (number === lookingAt) showAll();
}

function show(told) {
  const cdrs = JSON.stringify(shown.cdrs);
  shown = told;
  showAll();
  if (JSON.stringify(told.cdrs) !== cdrs) showTotals();
  if (all) changeFilterSoon();
}

let timer = null;
function changeFilterSoon() {
  timer = timer || setTimeout(() => { timer = null; changeFilter(); }, LOOK_AGAIN);
}

function showAll() {
  const told = shown;
  document.title = told.party;
  find("party").textContent = told.party;
  find("role").textContent = told.is_operator ? "operator" : "provider";
  for (const part of document.querySelectorAll("[data-role]")) {
    part.hidden = part.dataset.role !== (told.is_operator ? "operator" : "provider");
  }
  showSessions();
  showBills();
  showPartners();
  if (told.is_operator) {
    showEvses();
    showChargePoints();
    showWarnings();
  } else showProvider();
}

function connect() {
  const source = new EventSource("events");
  const connection = find("connection");
  source.addEventListener("open", () => { connection.textContent = "live"; });
  source.addEventListener("message", (event) => show(JSON.parse(event.data)));
  source.addEventListener("error", () => {
    connection.textContent = "connection lost";
    if (source.readyState === EventSource.CLOSED) setTimeout(connect, 2000);
  });
}

start.addEventListener("change", showChoices);
start.addEventListener("submit", (event) => {
  event.preventDefault();
  const { operator, location, evse, connector, token, minutes } = start.elements;
  const order = event.submitter.value;
  const place = { operator: operator.value, order, location_id: location.value, evse_uid: evse.value };
  if (order === "unlock_connector") {
    post("orders", { ...place, connector_id: connector.value }, `${evse.value} was asked to unlock its connector`);
    return;
  }
  if (!token.value) {
    tell("Add a token first", true);
    return;
  }
  const [uid, type] = JSON.parse(token.value);
  const members = { ...place, token_uid: uid, token_type: type };
  if (order === "start_session") post("orders", members, `A session at ${evse.value} was asked for`);
  else {
    const until = new Date(Date.now() + minutes.value * 60_000).toISOString();
    post("orders", { ...members, expiry_date: until, reservation_id: crypto.randomUUID() },
      `A reservation of ${evse.value} was asked for`);
  }
});

find("look").addEventListener("submit", (event) => event.preventDefault());
look.filter.addEventListener("input", changeFilter);
look.day.addEventListener("change", showTotals);
find("backup").addEventListener("submit", (event) => {
  event.preventDefault();
  const to = event.target.elements.to.value;
  post("backup", { to }, `The store and the state were copied to ${to}`);
});

find("token").addEventListener("submit", (event) => {
  event.preventDefault();
  const form = new FormData(event.target);
  const [country, identifier] = shown.party.split("/");
  post("tokens", { country_code: country, party_id: identifier, uid: form.get("uid"), type: form.get("type"),
    contract_id: form.get("contract_id"), issuer: form.get("issuer"), valid: form.has("valid"),
    whitelist: form.get("whitelist"), last_updated: new Date().toISOString() },
  `The token ${form.get("uid")} was saved`);
});

find("zone").textContent = Intl.DateTimeFormat().resolvedOptions().timeZone;
look.day.value = new Date().toLocaleDateString("sv-SE");
connect();
