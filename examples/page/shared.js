// What the pages share: elements whose text stays text, questions to the server, and requests that are kept until their answer came.
export const at = (id) => document.getElementById(id);
export const query = new URLSearchParams(location.search);
export const numberIn = (name) => /^[1-9][0-9]{0,9}$/.exec(query.get(name) ?? "")?.[0] ?? "";
export const known = {me: "", team: {}, ahead: 0};  // who is asking; names and labels, where the proxy has them; by how many milliseconds this clock is ahead of the proxy's

// Characters that can't be seen, or can't be told from a space: controls, those that turn the direction of the text around them, those of no width, and spaces but the usual ones.
// Each is shown by its number. Behind a picture U+FE0F chooses its colours.
const UNSEEN = /(?![\t\n \u3000])(?!(?<=\p{Extended_Pictographic})\ufe0f)[\p{Cc}\p{Cf}\p{Z}\p{Default_Ignorable_Code_Point}\u2800]/gu;
const numbered = (character) => `‹U+${character.codePointAt(0).toString(16).toUpperCase().padStart(4, "0")}›`;
export const plain = (text) => String(text).replace(UNSEEN, numbered);
function seen(text) {
  const nodes = [];
  let from = 0;
  for (const {0: character, index} of text.matchAll(UNSEEN)) {
    const mark = document.createElement("span");
    mark.className = "unseen";
    mark.textContent = numbered(character);
    nodes.push(text.slice(from, index), mark);
    from = index + character.length;
  }
  return [...nodes, text.slice(from)];
}
// An element. Strings among what is inside become text, whatever they say.
export function make(tag, attributes, ...inside) {
  const made = document.createElement(tag);
  for (const [name, value] of Object.entries(attributes)) made.setAttribute(name, plain(value));
  made.append(...inside.flatMap((it) => (typeof it === "string" ? seen(it) : [it])));
  return made;
}
// What others wrote, within a line: its direction is its own.
export const own = (text) => make("bdi", {}, String(text));
// Puts rows into a list or a table, or one row that says that there are none.
const NONE = {UL: (text) => make("li", {class: "soft"}, text), TBODY: (text) => make("tr", {}, make("td", {class: "soft"}, text)), DIV: (text) => text};
export const fill = (id, rows, none) => at(id).replaceChildren(...(rows.length || !none ? rows : [NONE[at(id).tagName](none)]));
export const tell = (...what) => at("answer").replaceChildren(...what.flatMap((it) => (typeof it === "string" ? seen(it) : [it])));
export const nameOf = (account) => (known.team.accounts?.[account] ? `${known.team.accounts[account]} (${account})` : `account ${account}`);

const WHY = {NOT_ALLOWED: "none of your groups has this right", CLOSED: "the change is not open", SAME_STATE: "it is so already",
  WORK_IN_PROGRESS: "the change is work in progress", STALE_PATCH_SET: "there is a newer patch set, so read that one first",
  NO_LABEL: "the project has no such label", VALUE_OUT: "the label has no such value", VOTE_RESTRICTED: "this value is not yours to give",
  NO_ACCOUNT: "there is no such account", NO_CHANGE: "there is no such change", NO_PROJECT: "there is no such project",
  NO_BRANCH: "there is no such branch", NO_CALLER: "your name has no account at the desk", CHAIN_WIP: "it stands on work in progress",
  CHAIN_OUTDATED: "it stands on a patch set that is not current any more", CHAIN_ABANDONED: "it stands on an abandoned change",
  REQUIREMENT_UNSATISFIED: "a submit requirement is unsatisfied", TOO_LARGE: "it is too large to be shown here, so fetch it",
  TOO_SLOW: "it takes too long here, so fetch it", TOO_MANY_REQUESTS: "you asked for too much at once",
  REVIEWER_HAS_VOTED: "this reviewer has voted, so only the reviewer and administrators can do that",
  EPOCH_CLOSED: "it was written weeks ago, and nobody can tell any more whether it was done. Look, and where it is still wanted, write it anew",
  BAD_EPOCH: "the clocks differ: load the page again, and press the button again", NO_COMMIT: "git doesn't have this patch set's commit", NO_ROUTE: "there is nothing of that name here"};
async function askOnce(method, path, more) {
  const response = await fetch(path, {method, cache: "no-store", signal: AbortSignal.timeout(60000), ...more});
  const text = await response.text();
  return {status: response.status, text, said: text.startsWith(")]}'\n") ? JSON.parse(text.slice(5)) : null};
}
// A question that came too soon is asked again, when the proxy says. A request isn't: whoever pressed the button does that.
export async function ask(method, path, more = {}) {
  for (let count = 1; ; count++) {
    const told = await askOnce(method, path, more);
    if (told.status !== 429 || method !== "GET" || count === 5) return told;
    await new Promise((done) => setTimeout(done, 1000 * Math.min(told.said?.retry_after ?? 1, 5) + 500 * Math.random()));
  }
}
export async function question(path) {
  const {status, said} = await ask("GET", path);
  if (status !== 200 || !said) throw new Error(refusal(status, said));
  return said;
}
export function refusal(status, said) {
  if (!said) return `The proxy answered ${status}.`;
  if (said.not_submitted === "STALE_PATCH_SET") return `There is a newer patch set ${said.current_patch_set}: nothing was submitted.`;
  if (said.not_submitted === "CONFLICT") return `Nothing was submitted: it conflicts with what the branch has${said.paths.length ? `, in ${said.paths.join(", ")}` : ""}. Rebase it, push it again, and have it looked at again.`;
  if (said.not_submitted === "NOT_MERGEABLE") return `Nothing was submitted: git can't have it, since ${said.why}.`;
  if (said.fault === "TOO_LARGE") return "Not sent: it is too large. All that is written here at once may have 30,000 bytes, so send it in parts.";
  const word = said.refused ?? said.fault ?? said.not_taken ?? said.not_submitted ?? said.not_shown;
  const before = said.not_submitted ? "Nothing was submitted" : said.not_shown ? "Not shown" : "Refused";
  return `${before}: ${word}${WHY[word] ? `, ${WHY[word]}` : ""}${said.requirement ? `: ${said.requirement}` : ""}${said.change ? ` (change ${said.change})` : ""}.`;
}

// A request is kept with its id from the first press until its answer came. Meanwhile each press sends this one again, so that it acts once.
const keyOf = (path) => `berthoglu ${known.me} ${path}`;
export const keptAt = (path) => JSON.parse(localStorage.getItem(keyOf(path)));
export const forget = (path) => localStorage.removeItem(keyOf(path));
export const keptPaths = () => Object.keys(localStorage).filter((key) => key.startsWith(keyOf(""))).map((key) => key.slice(keyOf("").length)).sort();
// The day by the proxy's clock, as 20261201, as of ten minutes ago: the epoch of a request that is made now. It keeps that, however often and however late it is sent.
const day = () => Number(new Date(Date.now() - known.ahead - 600000).toISOString().slice(0, 10).replaceAll("-", ""));
export function keep(path, body, more = {}) {
  const id = "page-" + Array.from(crypto.getRandomValues(new Uint8Array(16)), (byte) => byte.toString(16).padStart(2, "0")).join("");
  localStorage.setItem(keyOf(path), JSON.stringify({id, epoch: day(), body: JSON.stringify(body), ...more}));
}
// Sends what is kept for a path: its status and answer. Only an answer of the desk, or of the gate before it, tells what became of it. `isWaiting` where it has to be sent again; `isOver` where it was sent twice and the other one had the answer.
export async function send(path) {
  const {id, epoch, body, named, drafts, written} = keptAt(path);
  const headers = {"Request-Id": id, ...(epoch ? {"Request-Epoch": epoch} : {}), ...(named ? {"If-Match": `"${named}"`} : {})};
  const {status, said} = await ask("POST", path, {headers, body}).catch(() => ({status: 0}));
  const isTooSoon = status === 429, isWaiting = status === 0 || status >= 500 || isTooSoon || !said || said.fault === "BAD_EPOCH", isKept = keptAt(path)?.id === id;
  if (!isWaiting && isKept) {
    forget(path);
    if (status === 200 && drafts) keepDrafts(drafts, draftsOf(drafts).filter((one) => !written.includes(JSON.stringify(one))));
  }
  const came = status ? `Not taken (${said?.not_taken ?? said?.fault ?? status}).` : "No answer came.", wait = said?.retry_after > 1 ? ` in ${said.retry_after} seconds` : "";
  const why = `${isTooSoon ? "You have sent too many requests, and this one waits here." : came} Press the button again${wait}: the same request is sent, and acts once.`;
  return {status, said, body, isWaiting, isOver: !isKept, why};
}
// Comments that are written and not sent yet, by where they are kept.
export const draftsKey = (change, patchSet) => `berthoglu drafts ${known.me} ${change} ${patchSet}`;
export const draftsOf = (key) => JSON.parse(localStorage.getItem(key) ?? "[]");
export const keepDrafts = (key, list) => (list.length ? localStorage.setItem(key, JSON.stringify(list)) : localStorage.removeItem(key));

// Asks who is signed in, and for names and labels: whether the proxy has told it.
export async function begin() {
  const told = await fetch("team.json", {cache: "no-store"}).catch(() => null);
  if (!told || told.status >= 500) {
    tell("The proxy does not answer: load the page again.");
    return false;
  }
  known.me = told.headers.get("X-Account") ?? "";
  known.ahead = Date.now() - Date.parse(told.headers.get("Date")) || 0;
  known.team = told.ok ? await told.json().catch(() => ({})) : {};
  for (const it of document.querySelectorAll("[data-index]")) it.hidden = (it.dataset.index === "yes") !== Boolean(known.team.index);
  return true;
}
