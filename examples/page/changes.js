// The page of what waits for who is signed in, and of searches.
import {ask, at, begin, known, make, nameOf, own, plain, query} from "./shared.js";

const asked = query.get("q"), start = Number(/^\d{1,6}$/.exec(query.get("S") ?? "")?.[0] ?? 0), COUNT = 50, EVERY = 60000;
// Gerrit's own lists: what one has to act on comes first. Those without a word for none are left out where they are empty.
const LISTS = [["Your turn", "is:open attention:self", 50, "Nothing waits for you."], ["Work in progress", "is:open owner:self is:wip", 25, ""],
  ["Outgoing reviews", "is:open owner:self -is:wip", 25, "You have no open change."], ["Incoming reviews", "is:open -owner:self -is:wip reviewer:self", 25, "Nobody asks for your review."],
  ["CCed on", "is:open cc:self -owner:self -is:wip", 10, ""], ["Recently closed", "is:closed (owner:self OR reviewer:self OR cc:self) -age:4w", 10, "None in four weeks."]];

async function question(path) {
  const {status, text, said} = await ask("GET", path);
  if (status === 200 && said) return said;
  if (status === 400 || status === 403) throw new Error(text.trim());
  throw new Error(status === 502 ? "The index doesn't answer, so there are no lists. All else works: a change is found by its number." : `The index can't answer now (${status}). Load the page again later.`);
}
const search = (text, count, from) => question(`/changes/?${new URLSearchParams({q: text, n: count, S: from})}`);
const here = (text) => `?${new URLSearchParams({q: text})}`;
const isMe = (account) => String(account._account_id) === known.me;
const nameIn = (account) => (isMe(account) ? "you" : account.name);
const signed = (value) => (value > 0 ? `+${value}` : String(value).replace("-", "−"));
function since(text) {
  const seconds = Math.max(0, (Date.now() - Date.parse(`${text.slice(0, 19).replace(" ", "T")}Z`)) / 1000);
  const [unit, size] = [["d", 86400], ["h", 3600], ["min", 60]].find(([, one]) => seconds >= one) ?? ["s", 1];
  return `${Math.floor(seconds / size)} ${unit}`;
}
// The vote that counts most of a label: the one that objects, else the highest.
function votes(it, label) {
  const all = it.labels[label]?.all ?? [];
  if (!all.length) return "";
  const values = all.map((one) => one.value), worst = Math.min(...values), value = worst < 0 ? worst : Math.max(...values);
  const text = it.labels[label].rejected ? "✗" : it.labels[label].approved && value > 0 ? "✓" : signed(value);
  return make("span", {class: value > 0 ? "good" : "bad", title: `${label}: ${all.map((one) => `${one.name} ${signed(one.value)}`).join(", ")}`}, text);
}
function state(it) {
  const chip = (kind, text) => make("span", {class: `chip ${kind}`}, text);
  if (it.status !== "NEW") return it.status === "MERGED" ? chip("good", "Merged") : chip("bad", "Abandoned");
  if (it.work_in_progress) return chip("soft", "Work in progress");
  if (it.submittable) return chip("good", "Ready to submit");
  return make("small", {}, `needs ${it.submit_requirements.filter((one) => !["SATISFIED", "OVERRIDDEN", "NOT_APPLICABLE"].includes(one.status)).map((one) => one.name).join(", ")}`);
}
function row(it, labels) {
  const turn = Object.values(it.attention_set), mine = turn.find((one) => isMe(one.account));
  const isCalled = (account) => turn.some((one) => one.account._account_id === account._account_id);
  const person = (account) => make("span", isCalled(account) ? {class: "call", title: "in the attention set"} : {}, own(`${isCalled(account) ? "▸" : ""}${nameIn(account)}`));
  const others = (it.reviewers.REVIEWER ?? []).filter((one) => one._account_id !== it.owner._account_id);
  const unresolved = it.unresolved_comment_count ? [" ", make("span", {class: "chip call"}, `${it.unresolved_comment_count} unresolved`)] : [];
  const where = make("a", {href: here(`project:${it.project} branch:${it.branch} status:open`)}, `${it.project}, ${it.branch}`);
  return make("tr", mine ? {class: "turn"} : {},
    make("td", {}, make("a", {href: `./?change=${it._number}`}, `${it._number}: `, own(it.subject)), ...unresolved, ...(mine ? [make("small", {class: "why call"}, own(mine.reason))] : [])),
    make("td", {}, person(it.owner)), make("td", {class: "aside"}, ...others.flatMap((account, place) => [...(place ? [", "] : []), person(account)])),
    make("td", {class: "aside"}, where), make("td", {class: "aside"}, make("span", {class: "good"}, `+${it.insertions}`), " ", make("span", {class: "bad"}, `−${it.deletions}`)),
    make("td", {class: "aside", title: `${it.updated.slice(0, 16)} UTC`}, since(it.updated)), ...labels.map((label) => make("td", {"data-label": short(label)}, votes(it, label))), make("td", {}, state(it)));
}
const short = (label) => label.split("-").map((part) => part[0]).join("");
const labelsOf = (found) => [...new Set(found.flatMap((it) => Object.keys(it.labels)))].sort();
function table(name, found, labels = labelsOf(found)) {
  const head = [["Change", "subject"], ["Owner", "name"], ["Reviewers", "name aside"], ["Branch", "name aside"], ["Lines", "aside"], ["Seen", "aside"]].map(([text, kind]) => make("th", {scope: "col", class: kind}, text));
  return make("table", {class: "changes", "aria-label": name},
    make("thead", {}, make("tr", {}, ...head, ...labels.map((label) => make("th", {scope: "col", class: "vote", title: label, "aria-label": label}, short(label))), make("th", {scope: "col", class: "state"}, "State"))),
    make("tbody", {}, ...found.map((it) => row(it, labels))));
}
async function showLists() {
  const lists = await question(`/changes/?${LISTS.map(([, text, count]) => `q=${encodeURIComponent(`${text} limit:${count}`)}`).join("&")}`);
  const labels = labelsOf(lists.flat());
  at("sections").replaceChildren(...LISTS.flatMap(([title, text, , none], place) => {
    const found = lists[place];
    if (!found.length && !none) return [];
    return [make("h2", {}, make("a", {href: here(text)}, title), ` (${found.length}${found.at(-1)?._more_changes ? " or more" : ""})`), found.length ? table(title, found, labels) : make("p", {class: "soft"}, none)];
  }));
}
async function showFound() {
  const found = await search(asked, COUNT, start), page = (text, from) => make("a", {href: `?${new URLSearchParams({q: asked, S: from})}`}, text);
  if (found.length === 1 && !start && /^\s*([0-9]{1,10}|I[0-9a-f]{40}|[0-9a-f]{40})\s*$/.test(asked)) location.replace(`./?change=${found[0]._number}`);
  at("sections").replaceChildren(found.length ? table("Changes that were found", found) : make("p", {class: "soft"}, "No change fits."));
  at("pages").replaceChildren(...(start ? [page("← newer", Math.max(0, start - COUNT))] : []), ...(found.at(-1)?._more_changes ? [page("older →", start + COUNT)] : []));
}
// What the index is behind the desk: nothing to speak of, or why the lists may not be what the desk says.
async function showBehind() {
  const it = await question("/index/state"), old = Math.max(1, Math.ceil(it.open_asked_seconds_ago ?? 0));
  const why = it.heard_seconds_ago === null || it.heard_seconds_ago > 5 ? `The desk hasn't answered the index for ${it.heard_seconds_ago === null ? "as long as it runs" : `${Math.round(it.heard_seconds_ago)} seconds`}`
    : !it.has_all_changes ? `The index is being filled: it has the changes up to ${it.last}` : it.waiting > 50 ? `The index asks the desk for ${it.waiting} changes again` : "";
  at("behind").className = why ? "call" : "soft";
  at("behind").textContent = why ? `${why}, so these lists may be behind.` : `What the desk said within the last ${old === 1 ? "second" : `${old} seconds`}.`;
}
async function show() {
  at("answer").textContent = await (asked ? showFound() : showLists()).then(() => "", (error) => plain(error.message));
  await showBehind().catch(() => { at("behind").textContent = ""; });
}
async function main() {
  document.querySelector("header input").value = asked ?? "";
  if (asked) document.title = at("title").textContent = plain(`Search: ${asked}`);
  if (!await begin()) return;
  at("who").textContent = known.me ? `Signed in as ${nameOf(known.me)}` : "";
  await show();
  const again = () => document.visibilityState === "visible" && !document.activeElement?.closest("#sections, #pages") && show();
  document.addEventListener("visibilitychange", again);
  setInterval(again, EVERY);
}
main().catch((error) => { at("answer").textContent = error.message; });
