// The page of a difference, with the comments at their lines. Comments that are written are kept in this browser until they are sent, all of a patch set as one review.
import {ask, at, begin, draftsKey, draftsOf, forget, keep, keepDrafts, keptAt, known, make, nameOf, numberIn, own, plain, question, refusal, send, tell} from "./shared.js";
import {common, moved, read} from "./lines.js";

const change = numberIn("change"), base = numberIn("base"), context = numberIn("context") || "5";
const MOST_SENT = 28000;  // bytes of comments that are sent at once: the proxy takes 30,000
const MOST_OPEN = 3000;  // so many rows are shown at once; a file beyond is opened by hand
let patchSet = numberIn("patch_set"), isCurrent = false;

const reviewPath = () => `/changes/${change}/revisions/${patchSet}/review`;
const key = (set = patchSet) => draftsKey(change, set);
const say = (error) => tell(error.message);

async function difference(from, to, lines) {
  const {status, text, said} = await ask("GET", `/changes/${change}/revisions/${to}/difference?${new URLSearchParams({...(from ? {base: from} : {}), context: lines})}`);
  if (status !== 200) throw new Error(status >= 500 && !said ? `The code can't be shown: what shows it doesn't answer (${status}). Load the page again later.` : refusal(status, said));
  return text;
}
function changed(list) {
  if (list) keepDrafts(key(), list);
  const count = draftsOf(key()).length, isKept = keptAt(reviewPath()) !== null;
  at("send").hidden = !count && !isKept;
  at("send").textContent = isKept ? "Send again" : `Send ${count} comment${count === 1 ? "" : "s"}`;
}
function threadBox({unresolved, comments}, note) {
  const box = make("article", {class: unresolved ? "open" : ""}, make("small", {class: unresolved ? "call" : ""}, `${unresolved ? "Unresolved" : "Resolved"}${note}`),
    ...comments.map((said) => make("div", {}, make("small", {}, `${nameOf(said.author)}, patch set ${said.patch_set}`), make("p", {}, said.message))));
  if (!isCurrent) return box;
  const answer = make("button", {type: "button"}, "Answer"), draft = {path: comments[0].path, line: comments[0].line, in_reply_to: comments.at(-1).id};
  answer.onclick = () => { answer.hidden = true; box.append(editor({...draft, unresolved: false, message: ""})); };
  const written = draftsOf(key()).find((one) => one.in_reply_to === draft.in_reply_to);
  answer.hidden = Boolean(written);
  box.append(answer, ...(written ? [editor(written)] : []));
  return box;
}
function editor(draft) {
  const text = make("textarea", {"aria-label": draft.in_reply_to ? "Your answer" : `Comment on ${draft.path}, line ${draft.line}`});
  const open = make("input", {type: "checkbox", ...(draft.unresolved ? {checked: ""} : {})});
  text.value = draft.message;
  const isSame = (one) => one.path === draft.path && one.line === draft.line && one.in_reply_to === draft.in_reply_to;
  const save = () => changed([...draftsOf(key()).filter((one) => !isSame(one)), ...(text.value.trim() ? [{...draft, message: text.value, unresolved: open.checked}] : [])]);
  text.oninput = save;
  open.onchange = save;
  if (!draft.message) setTimeout(() => text.focus());
  return make("div", {}, text, make("label", {}, open, " Unresolved"), " ", make("small", {}, "kept in this browser until it is sent; empty it to drop it"));
}
function marked(side, other) {
  if (!other) return [side[1]];
  const [before, own_, after] = common(side[1], other[1]);
  return before || after ? [before, ...(own_ ? [make("b", {}, own_)] : []), after] : [side[1]];
}
function rowsOf(file, placed) {
  const body = make("tbody", {}), under = (node) => make("tr", {}, make("td", {class: "said", colspan: "4"}, node));
  const cell = (side, kind, other) => make("td", {class: side ? kind : "none"}, ...(side ? marked(side, other) : []), ...(side?.[2] ? [make("small", {}, " (no line end)")] : []));
  const written = isCurrent ? draftsOf(key()).filter((one) => one.path === file.path && !one.in_reply_to) : [];
  body.append(...(placed.get(`${file.path}\n0`) ?? []).map(under));
  const isShown = (line) => file.rows.some((row) => typeof row !== "string" && row[1]?.[0] === line);
  for (const draft of written.filter((one) => !isShown(one.line))) {
    body.append(under(make("div", {}, make("small", {}, draft.line ? `line ${draft.line}` : "the file"), editor(draft))));
  }
  for (const row of file.rows) {
    if (typeof row === "string") { body.append(make("tr", {}, make("td", {class: "gap", colspan: "4"}, row))); continue; }
    const [was, is, isSame] = row;
    const number = (side) => make("td", {class: side ? "number" : "number none"}, side ? String(side[0]) : "");
    const made = make("tr", {class: isSame ? "same" : ""}, number(was), cell(was, isSame ? "" : "old", isSame ? null : is), number(is), cell(is, isSame ? "" : "new", isSame ? null : was));
    body.append(made);
    if (!is) continue;
    if (isCurrent) {
      const line = make("button", {type: "button", "aria-label": `Comment on line ${is[0]}`}, String(is[0]));
      line.onclick = () => made.after(under(editor({path: file.path, line: is[0], unresolved: true, message: ""})));
      made.children[2].replaceChildren(line);
    }
    body.append(...(placed.get(`${file.path}\n${is[0]}`) ?? []).map(under), ...written.filter((one) => one.line === is[0]).map((one) => under(editor(one))));
  }
  return make("table", {}, make("colgroup", {}, ...["number", "", "number", ""].map((kind) => make("col", {class: kind}))), body);
}
function fileBox(file, index, placed, isOpen) {
  const isMoved = file.old && file.old !== "/dev/null" && file.old !== file.path;
  const name = make("summary", {}, ...(isMoved ? [own(file.old), " → "] : []), own(file.path), make("small", {}, ` +${file.come} −${file.gone}`));
  const box = make("details", {class: "file", id: `file-${index}`}, name, ...file.notes.map((text) => make("p", {}, make("small", {}, own(text)))));
  const open = () => { if (box.open && !box.querySelector("table")) box.append(rowsOf(file, placed)); };
  box.ontoggle = open;
  box.open = isOpen || location.hash === `#file-${index}`;
  open();
  return box;
}
// Drafts of an older patch set, to which the desk takes no review any more, stand at their lines in the current one.
async function bringDrafts(sets) {
  for (const set of sets.filter((one) => one !== patchSet && draftsOf(key(one)).length && !keptAt(`/changes/${change}/revisions/${one}/review`))) {
    const way = await difference(set, patchSet, 0).then(read, () => []);
    const brought = draftsOf(key(set)).map((one) => (one.in_reply_to || !one.line ? one : {...one, line: moved(way.find((file) => file.path === one.path), one.line) ?? 0}));
    keepDrafts(key(), [...draftsOf(key()), ...brought]);
    keepDrafts(key(set), []);
    at("note").textContent = `What you wrote on patch set ${set} and haven't sent stands at its lines in this one.`;
  }
}
function choose(id, options, chosen) {
  at(id).replaceChildren(...options.map(([value, text]) => make("option", {value, ...(value === chosen ? {selected: ""} : {})}, text)));
}
async function place(threads, files, sets) {
  const placed = new Map(), elsewhere = [], said = new Set(threads.map((one) => String(one.comments[0].patch_set)));
  const others = [...said].filter((one) => one !== patchSet && sets.includes(one));
  const ways = new Map(await Promise.all(others.map(async (one) => [one, await difference(one, patchSet, 0).then(read, () => null)])));
  for (const thread of threads) {
    const {path, line: first, patch_set: from} = thread.comments[0], isHere = String(from) === patchSet, way = ways.get(String(from));
    const line = isHere || !first ? first : way ? moved(way.find((file) => file.path === path), first) : null;
    const isShown = line !== null && files.some((file) => file.path === path && (!line || file.rows.some((row) => typeof row !== "string" && row[1]?.[0] === line)));
    const box = threadBox(thread, isHere ? "" : `, said of patch set ${from}${first ? `, line ${first}` : ""}`), where = `${path}\n${line}`;
    if (isShown) placed.set(where, [...(placed.get(where) ?? []), box]);
    else if (path !== "/PATCHSET_LEVEL") elsewhere.push(make("p", {}, own(path === "/COMMIT_MSG" ? "Commit message" : path), `${first ? `, line ${first}` : ""} of patch set ${from}`), box);
  }
  return {placed, elsewhere};
}
async function show() {
  const [it, told] = await Promise.all([question(`/changes/${change}`), ask("GET", `/changes/${change}/revisions`)]);
  const current = String(it.current_patch_set);
  const sets = (told.status === 200 ? told.said : []).map((one) => String(one._number)).filter((one) => Number(one) <= it.current_patch_set);
  patchSet ||= current;
  isCurrent = patchSet === current && it.status === "NEW";
  const commit = await ask("GET", `/changes/${change}/revisions/${patchSet}/commit`).catch(() => ({})), subject = commit.said?.subject ?? it.subject;
  if (patchSet === current && commit.said?.commit && commit.said.commit !== it.commit) throw new Error(refusal(404, {not_shown: "NO_COMMIT"}));
  document.title = plain(`${it.change}: ${subject}`);
  at("home").href = `./?change=${change}`;
  at("subject").replaceChildren(make("a", {href: `./?change=${change}`}, `Change ${it.change}`), ": ", own(subject));
  choose("patch_set", sets.map((one) => [one, `patch set ${one}`]), patchSet);
  choose("base", [["", "its parent"], ...sets.map((one) => [one, `patch set ${one}`])], base);
  at("context").value = context;
  document.querySelector("[name=change]").value = change;
  at("note").textContent = isCurrent ? "" : it.status === "NEW" ? `This isn't the current patch set, which is ${current}. Comments are written on that one.` : "The change is closed.";
  if (isCurrent) await bringDrafts(sets);
  const [text, threads] = await Promise.all([difference(base, patchSet, context), question(`/changes/${change}/threads`)]);
  const files = read(text), {placed, elsewhere} = await place(threads, files, sets);
  let rows = 0;
  const written = isCurrent ? draftsOf(key()).filter((one) => !one.in_reply_to) : [];
  const isTalkedOf = ({path}) => written.some((one) => one.path === path) || [...placed.keys()].some((where) => where.startsWith(`${path}\n`));
  const boxes = files.map((file, index) => fileBox(file, index, placed, (rows += file.rows.length) < MOST_OPEN || isTalkedOf(file)));
  for (const draft of written.filter((one) => !files.some((file) => file.path === one.path))) {
    elsewhere.push(make("p", {}, own(draft.path), draft.line ? `, line ${draft.line}: yours, not sent yet` : ": yours, not sent yet"), editor(draft));
  }
  at("files").replaceChildren(...(boxes.length ? boxes : [make("p", {class: "soft"}, "There is no difference.")]));
  at("elsewhere").replaceChildren(...(elsewhere.length ? [make("details", {open: ""}, make("summary", {}, "Comments on lines that aren't shown here"), ...elsewhere)] : []));
  changed();
}
// What is sent is kept with its id until its answer came, and sent again under the same one: so it acts once.
function fitting(list) {
  let size = 0;
  return list.filter((one, place) => (size += new TextEncoder().encode(JSON.stringify(one)).length + one.path.length) <= MOST_SENT || !place);
}
at("send").onclick = async (event) => {
  if (!keptAt(reviewPath())) {
    const list = fitting(draftsOf(key())), comments = Object.create(null);
    if (event.detail > 1 || !list.length) return;
    for (const {path, ...said} of list) (comments[path] ??= []).push(said);
    keep(reviewPath(), {comments}, {drafts: key(), written: list.map((one) => JSON.stringify(one))});
  }
  tell("Sending …");
  changed();
  const {status, said, isWaiting, isOver, why} = await send(reviewPath());
  if (isOver) return;
  if (isWaiting) { changed(); tell(why); return; }
  if (status === 200) await show();
  changed();
  const left = draftsOf(key()).length;
  tell(status === 200 ? (left ? `Sent, but for ${left} that would have been too much at once: press the button again.` : "Sent.") : refusal(status, said));
};
async function main() {
  if (!await begin()) return;
  at("who").textContent = known.me ? `Signed in as ${nameOf(known.me)}` : "";
  await show();
  if (location.hash.startsWith("#file-")) at(location.hash.slice(1))?.scrollIntoView();
}
main().catch(say);
