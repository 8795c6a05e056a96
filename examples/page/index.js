// The page of a change or of a branch.
import {ask, at, begin, fill, forget, keep, keptAt, keptPaths, known, make, nameOf, numberIn, own, plain, query, question, refusal, send, tell} from "./shared.js";

const change = numberIn("change");
const STATUS = {NEW: ["Active", "call"], MERGED: ["Merged", "good"], ABANDONED: ["Abandoned", "bad"]};
const REQUIREMENT = {SATISFIED: ["✓ satisfied", "good"], UNSATISFIED: ["✗ unsatisfied", "bad"], OVERRIDDEN: ["✓ overridden", "good"],
  NOT_APPLICABLE: ["– not applicable", "soft"]};
const PLACE = new Map([["/PATCHSET_LEVEL", "Patch set"], ["/COMMIT_MSG", "Commit message"]]);
let shown = null, code = null;  // the change as it was shown last, and what git told of its patch set

const nameOrYou = (account) => nameOf(account) + (String(account) === known.me ? ", you" : "");
const signed = (value) => (value > 0 ? `+${value}` : String(value).replace("-", "−"));
const chip = ([text, kind]) => make("span", {class: `chip ${kind}`}, text);
const submitButton = () => document.querySelector("[data-do=submit]");

async function press(event, path, body, more) {
  if (!keptAt(path)) {
    if (event.detail > 1) return;  // the second press of a double one, when the answer to the first has come
    keep(path, body, more);
  }
  tell("Sending …");
  lock();
  const {status, said, body: text, isWaiting, isOver, why} = await send(path);
  if (isOver) return;
  if (isWaiting) {
    showKept();
    return tell(why);
  }
  lock();
  if (said?.not_submitted === "STALE_PATCH_SET") {
    showKept();
    return tell(`${refusal(status, said)} `, make("a", {href: `?change=${change}`}, "Load it"));
  }
  if (status === 200 && path === reviewPath()) { at("reply").reset(); at("vote-note").hidden = true; }
  const before = shown?.current_patch_set, isShown = await show();
  const done = said?.joined ? `Merged: ${said.joined.map((one) => `change ${one}`).join(", ")}.` : "Done.";
  tell((status === 200 ? done : refusal(status, said) + (body ? "" : ` It was: ${text}`)) + (isShown ? "" : " To see it, load the page again.")
    + (isShown && before && shown.current_patch_set !== before ? ` Patch set ${shown.current_patch_set} is the current one now, and is what is shown here.` : ""));
  if (event.target.hidden || !event.target.isConnected) at("subject").focus();
}
function showKept() {
  const paths = keptPaths();
  fill("kept", paths.map((path) => {
    const again = make("button", {type: "button"}, "Send again"), drop = make("button", {type: "button"}, "Forget it");
    again.onclick = (event) => press(event, path);
    drop.onclick = () => { forget(path); location.reload(); };
    return make("div", {class: "row"}, make("span", {}, `No answer yet: ${path} `, make("code", {}, keptAt(path).body)), again, drop);
  }));
  at("kept").hidden = !paths.length;
  lock();
}
const reviewPath = () => `/changes/${change}/revisions/${shown?.current_patch_set}/review`;
const lock = () => { at("words").disabled = keptAt(reviewPath()) !== null; };

// What the form says, as a review: the message, the votes, and comments by path. Without text a thread that is resolved gets a "Done", as in Gerrit.
function review(threads) {
  const form = at("reply").elements, body = {}, comments = Object.create(null), labels = Object.create(null);
  const say = (path, comment) => (comments[path] ??= []).push(comment);
  for (const {comments: said, root, unresolved} of threads) {
    const {id, path, line} = said.at(-1), text = form[`text-${root}`].value.trim(), isUnresolved = !form[`resolved-${root}`].checked;
    const message = text || (isUnresolved ? "Not resolved." : "Done.");
    if (text || isUnresolved !== unresolved) say(path, {line, in_reply_to: id, unresolved: isUnresolved, message});
  }
  if (form.comment.value.trim()) {
    say(form.path.value.trim() || "/PATCHSET_LEVEL", {line: Number(form.line.value), unresolved: form.unresolved.checked, message: form.comment.value});
  }
  for (const vote of at("labels").querySelectorAll("select")) if (vote.value) labels[vote.name.slice(5)] = Number(vote.value);
  if (form.message.value.trim()) body.message = form.message.value;
  if (Object.keys(labels).length) body.labels = labels;
  if (Object.keys(comments).length) body.comments = comments;
  return body;
}
// Why the comment on a file can't be sent: without a code server (docs/proxy.md) nobody knows the files, and any path is taken.
function pathFault() {
  const {comment, path} = at("reply").elements, place = path.value.trim();
  if (!comment.value.trim() || !place || PLACE.has(place) || at("code").hidden || code?.files.some((file) => file.path === place)) return "";
  return `Nothing was sent: ${code && !code.files_not_shown ? `patch set ${shown.current_patch_set} has no file ${place}` : "the files aren't known now"}. Choose one of the files, or none for the whole patch set.`;
}
function threadRow({root, unresolved, comments}) {
  const first = comments[0], place = PLACE.get(first.path) ?? first.path;
  const box = make("input", {type: "checkbox", name: `resolved-${root}`, ...(unresolved ? {} : {checked: ""})});
  return make("article", {class: unresolved ? "open" : "", "aria-labelledby": `thread-${root}`},
    make("h3", {id: `thread-${root}`}, own(place), `${first.line ? `, line ${first.line}` : ""} `, chip(unresolved ? ["Unresolved", "call"] : ["Resolved", "soft"])),
    ...comments.map((said) => make("div", {}, make("small", {}, `${nameOf(said.author)}, patch set ${said.patch_set}`), make("p", {}, said.message))),
    make("details", {}, make("summary", {}, "Reply"), make("label", {for: `text-${root}`}, "Your reply"),
      make("textarea", {id: `text-${root}`, name: `text-${root}`}), make("label", {}, box, " Resolved")));
}
function labelField(label, votes) {
  const mine = votes.find((vote) => vote.label === label && String(vote.account) === known.me);
  const values = (known.team.labels?.[shown.project]?.[label] ?? [-2, -1, 0, 1, 2]).map((value) => make("option", {value}, signed(value)));
  const usual = make("option", {value: ""}, mine ? `keep ${signed(mine.value)}` : "no vote");
  return make("label", {}, `${label} `, make("select", {name: `vote-${label}`}, usual, ...values));
}
function showSubject(it, isConflict) {
  const subject = code?.subject ?? it.subject;
  document.title = plain(`${subject} · Change ${it.change}`);
  at("subject").replaceChildren(`${it.change}: `, own(subject), " ", chip(it.status === "NEW" && it.work_in_progress ? ["Work in progress", "soft"] : STATUS[it.status]),
    ...(isConflict ? [" ", chip(["Merge conflict", "bad"])] : []));
}
function showFacts(it) {
  const branch = make("a", {href: `?${new URLSearchParams({project: it.project, branch: it.branch})}`}, `${it.project}, ${it.branch}`);
  const ref = `refs/changes/${String(it.change % 100).padStart(2, "0")}/${it.change}/${it.current_patch_set}`, git = known.team.git?.[it.project];
  const person = ({name, email, date}) => make("span", {}, own(name), " <", own(email), ">", make("br", {}), make("small", {}, date ? `${date.slice(0, 16)} UTC` : "no date"));
  fill("facts", [["Branch", branch], ["Owner", nameOrYou(it.owner)], ["Uploader", nameOrYou(it.uploader)],
    ["Patch set", `${it.current_patch_set}, the current one`], ["Commit", make("code", {}, it.commit)],
    ...(code ? [["Author", person(code.author)], ["Committer", person(code.committer)]] : []),
    ...(git ? [["Download", make("code", {}, `git fetch ${git} ${ref}`)]] : [])].flatMap(([term, value]) => [make("dt", {}, term), make("dd", {}, value)]));
}
const sizeOf = ({binary, size_delta, insertions, deletions}) => (binary ? `binary, ${signed(size_delta)} bytes` : `+${insertions} −${deletions}`);
function fileRow(file, address, index) {
  const was = file.old_path ? [make("small", {}, file.status === "C" ? "copied from " : "was ", own(file.old_path)), make("br", {})] : [];
  const kind = {[0o100755]: "executable", [0o120000]: "link", [0o160000]: "submodule"}[file.new_mode] ?? (file.status === "A" ? "" : "not executable");
  const what = {A: "new ", D: "deleted "}[file.status] ?? "", mode = file.new_mode !== file.old_mode && file.status !== "D" ? kind : "";
  const noted = make("small", {class: mode && mode !== "not executable" ? "call" : ""}, ` ${what}${mode}`);
  return make("tr", {}, make("td", {}, ...was, make("a", {href: `${address}#file-${index}`}, own(file.path)), noted), make("td", {class: "sizes"}, sizeOf(file)));
}
const setPath = (it) => `/changes/${change}/revisions/${it.current_patch_set}`;
// What git tells of the patch set that is shown. Submit waits for it, so that nobody submits what isn't shown; without a code server (docs/proxy.md) it doesn't.
async function showCode(it) {
  const address = `diff.html?${new URLSearchParams({change, patch_set: it.current_patch_set})}`;
  const {status, said} = await ask("GET", `${setPath(it)}/commit`).catch(() => ({status: 0}));
  if (shown !== it) return;
  const isDown = status === 0 || (status >= 500 && !said), isNone = said?.fault === "NO_ROUTE", isOther = status === 200 && said.commit !== it.commit, isThere = status === 200 && !isOther;
  at("code").hidden = isNone;
  const off = `The code can't be shown, and Submit is off: what shows the one and takes the other doesn't answer (${status || "no answer"}). All else works. Load the page again later.`;
  at("code-note").replaceChildren(isThere ? make("a", {href: address}, `The difference of patch set ${it.current_patch_set}`) : make("span", {}, isDown ? off : refusal(status, isOther ? {not_shown: "NO_COMMIT"} : said)));
  for (const id of ["commit-message", "paths"]) at(id).hidden = !isThere;
  submitButton().disabled = isDown;
  if (!isThere) return;
  code = said;
  at("commit-message").replaceChildren(make("span", {}, said.message));
  showSubject(it, false);
  showFacts(it);
  fill("file-names", said.files.map((file) => make("option", {value: file.path})));
  fill("files", said.files.map((file, index) => fileRow(file, address, index)), said.files_not_shown ? refusal(409, {not_shown: said.files_not_shown}) : "No file.");
  showConflict(it);
}
async function showConflict(it) {
  if (it.status !== "NEW") return;
  const merge = await ask("GET", `${setPath(it)}/mergeable`).catch(() => ({}));
  if (shown !== it || merge.status !== 200 || merge.said.mergeable) return;
  showSubject(it, true);
  at("conflicts").hidden = false;
  const {conflicts, why} = merge.said, paths = conflicts.flatMap((path, index) => [make("span", {}, index ? ", " : ""), own(path)]);
  at("conflicts").replaceChildren(make("span", {}, conflicts.length ? `It conflicts with what ${it.branch} has: ` : `It can't come into ${it.branch}: ${why}`), ...paths);
}
async function showChange() {
  const questions = ["", "/requirements", "/threads", "/attention"].map((part) => question(`/changes/${change}${part}`));
  const [it, requirements, threads, attention] = await Promise.all(questions);
  const ticks = [...at("reply").querySelectorAll("[type=checkbox]")].filter((box) => box.checked !== box.defaultChecked).map((box) => [box.name, box.checked]);
  const unfolded = [...at("threads").querySelectorAll("details[open] textarea")].map((text) => text.id), isOther = shown && shown.current_patch_set !== it.current_patch_set;
  const written = new FormData(at("reply")), isOpen = it.status === "NEW", voted = [...new Set(it.votes.map((vote) => vote.label))];
  const labels = known.team.labels?.[it.project] ? Object.keys(known.team.labels[it.project]) : requirements.map((one) => one.name);
  if (shown?.commit !== it.commit) {
    code = null;
    at("code-note").textContent = "Loading the code …";
    for (const id of ["commit-message", "paths"]) at(id).hidden = true;
  }
  shown = it;
  at("conflicts").hidden = true;
  showSubject(it, false);
  showFacts(it);
  fill("attention", attention.map(({account, reason}) => make("li", {}, make("strong", {class: "call"}, nameOrYou(account)),
    ": ", own(reason.replace(/^account (\d+) /, (_, other) => `${nameOf(other)} `)))), "Nobody.");
  fill("requirements", requirements.map(({name, status}) => make("tr", {}, make("th", {scope: "row"}, name),
    make("td", {class: REQUIREMENT[status][1]}, REQUIREMENT[status][0]))), "The project has none.");
  const voteRow = ({account, value}) => make("div", {class: value > 0 ? "good" : "bad"}, `${signed(value)} ${nameOrYou(account)}`);
  fill("votes", voted.map((label) => make("tr", {}, make("th", {scope: "row"}, label),
    make("td", {}, ...it.votes.filter((vote) => vote.label === label).map(voteRow)))), "None yet.");
  fill("people", [...it.reviewers.map(nameOrYou), ...it.ccs.map((one) => `CC: ${nameOrYou(one)}`)].map((text) => make("li", {}, text)), "Nobody yet.");
  fill("names", Object.values(known.team.accounts ?? {}).map((value) => make("option", {value})));
  fill("threads", [...threads].sort((one, other) => other.unresolved - one.unresolved || one.root - other.root).map(threadRow), "No comments yet.");
  fill("labels", isOpen ? [...new Set([...voted, ...labels])].sort().map((label) => labelField(label, it.votes)) : []);
  for (const [name, value] of written) {
    const field = at("reply").elements[name];
    if (field && field.type !== "checkbox" && !(isOther && name.startsWith("vote-"))) field.value = value;  // A vote was chosen for the patch set that was read.
  }
  for (const [name, checked] of ticks) if (at("reply").elements[name]) at("reply").elements[name].checked = checked;
  for (const id of unfolded) if (at(id)) at(id).closest("details").open = true;
  at("vote-note").hidden = !(isOther && [...written].some(([name, value]) => name.startsWith("vote-") && value)) && at("vote-note").hidden;
  const isReady = isOpen && !it.work_in_progress, isWip = isOpen && it.work_in_progress;
  const can = {submit: isReady, wip: isReady, ready: isWip, abandon: isOpen, restore: it.status === "ABANDONED"};
  for (const button of document.querySelectorAll("[data-do]")) button.hidden = !can[button.dataset.do];
  at("actions").hidden = it.status === "MERGED";
  submitButton().classList.toggle("main", requirements.every((one) => one.status !== "UNSATISFIED"));
  submitButton().disabled = !code;
  submitButton().textContent = `Submit patch set ${it.current_patch_set}`;
  at("send").onclick = (event) => {
    const body = review(threads), fault = keptAt(reviewPath()) ? "" : pathFault();
    if (fault) return tell(fault);
    if (keptAt(reviewPath()) || Object.keys(body).length) return press(event, reviewPath(), body);
    return event.detail > 1 || tell("There is nothing to send: write a message or a comment, or choose a vote.");
  };
  if (code) showConflict(it);
  else await Promise.race([showCode(it), new Promise((done) => setTimeout(done, 1500))]);  // so that nothing moves under one's fingers, unless it takes long
}
async function showBranch() {
  const [project, branch] = [query.get("project"), query.get("branch")], path = `/projects/${encodeURIComponent(project)}/branches/${encodeURIComponent(branch)}`;
  const {bases, joined} = await question(path);
  document.title = plain(`${project}, ${branch}`);
  at("branch-name").replaceChildren(own(project), ", ", own(branch));
  const row = (...cells) => make("tr", {}, ...cells.map((cell) => make("td", {}, cell))), link = (number) => make("a", {href: `?change=${number}`}, `Change ${number}`);
  fill("merged", joined.map(({change: number, commit}, place) => row(String(place + 1), link(number), make("code", {}, commit))).reverse().slice(0, 500), "None yet.");
  fill("bases", bases.map((base) => make("li", {}, make("code", {}, base))));
  const {status, said} = await ask("GET", `${path}/passed-over`).catch(() => ({status: 0}));
  at("left-out").hidden = status !== 200 || !said?.length;
  if (!at("left-out").hidden) fill("passed-over", said.map(({change: number, commit, why}) => make("li", {}, link(number), ": ", own(why ?? ""), " ", make("code", {}, commit ?? ""))));
}
async function show() {
  const [view, fillView] = change ? ["change", showChange] : query.get("project") ? ["branch", showBranch] : ["home", async () => {}];
  const isShown = await fillView().then(() => true, (error) => tell(error.message));
  if (isShown) at(view).hidden = false;
  showKept();
  return isShown;
}
function addPerson(event, state) {
  const given = at("person").value.trim(), found = Object.entries(known.team.accounts ?? {}).find(([, name]) => name === given);
  const reviewer = Number(found?.[0] ?? given);
  return reviewer > 0 ? press(event, `/changes/${change}/reviewers?${state}=${reviewer}`, {reviewer, state}) : tell("Give an account's number, or a name of the list.");
}
async function main() {
  for (const field of document.querySelectorAll("header input")) field.value = query.get(field.name);
  if (!await begin()) return;
  if (known.team.index && !change && !query.get("project")) location.replace("changes.html");
  at("who").textContent = known.me ? `Signed in as ${nameOf(known.me)}` : "";
  for (const button of document.querySelectorAll("[data-do]")) {
    const named = () => (button.dataset.do === "submit" ? {named: shown.current_patch_set} : {});
    button.onclick = (event) => press(event, `/changes/${change}/${button.dataset.do}`, {}, named());
  }
  for (const button of document.querySelectorAll("[data-state]")) button.onclick = (event) => addPerson(event, button.dataset.state);
  await show();
}
main().catch((error) => tell(error.message));
