// Reads the text of git's own difference: which lines stand side by side, where a line of one patch set stands in another one, and what two lines don't have in common.

// File by file: its paths, what git notes of it, its hunks as numbers, and rows, each with the number and text of the old line and of the new one, and whether that ends without
// a line's end; and with true where git says that both are the same, which two texts can't tell: bytes that are no UTF-8 look alike. A text is a gap between hunks.
export function read(text) {
  const files = [];
  let file = null, rows = null, gone = [], come = [], last = [], old = 0, now = 0;
  const flush = () => {
    for (let place = 0; place < Math.max(gone.length, come.length); place += 1) rows.push([gone[place], come[place]]);
    gone = []; come = [];
  };
  for (const line of text.split("\n")) {
    const hunk = /^@@ -(\d+)(?:,(\d+))? \+(\d+)(?:,(\d+))? @@(.*)$/.exec(line);
    if (line.startsWith("diff --git ")) {
      if (rows) flush();
      rows = null;
      files.push(file = {head: line.slice(11), old: "", path: "", notes: [], hunks: [], rows: [], gone: 0, come: 0});
    } else if (!file) continue;
    else if (hunk) {
      if (rows) flush();
      rows = file.rows;
      [old, now] = [Number(hunk[1]), Number(hunk[3])];
      file.hunks.push([old, Number(hunk[2] ?? 1), now, Number(hunk[4] ?? 1)]);
      rows.push(hunk[5].trim() || "…");
    } else if (!rows) note(file, line);
    else if (line[0] === "-") { gone.push(...last = [[old++, line.slice(1)]]); file.gone += 1; }
    else if (line[0] === "+") { come.push(...last = [[now++, line.slice(1)]]); file.come += 1; }
    else if (line[0] === " ") { flush(); last = [[old++, line.slice(1)], [now++, line.slice(1)]]; rows.push([...last, true]); }
    else if (line[0] === "\\") for (const side of last) side[2] = true;
  }
  if (rows) flush();
  for (const one of files) if (!one.path || one.path === "/dev/null") one.path = one.old && one.old !== "/dev/null" ? one.old : named(one.head);
  return files;
}
// A line between the head of a file and its first hunk.
function note(file, line) {
  const name = /^(---|\+\+\+) (.*?)\t?$/.exec(line), moved = /^(rename|copy) (from|to) (.*)$/.exec(line);
  if (name) file[name[1] === "---" ? "old" : "path"] = /^"?[ab]\//.test(name[2]) ? unquoted(name[2]).slice(2) : name[2];
  else if (moved) file[moved[2] === "from" ? "old" : "path"] = unquoted(moved[3]);
  if (!name && /^(new|deleted|rename|copy|similarity|Binary|old mode|note:)/.test(line)) file.notes.push(moved ? `${moved[1]} ${moved[2]} ${unquoted(moved[3])}` : line);
}
// The path of a file that git tells in its head alone, twice: a mode that changed, an empty file, bytes that are no text.
function named(head) {
  const half = head.slice(0, (head.length - 1) / 2), other = head.slice((head.length + 1) / 2);
  return unquoted(half).slice(2) === unquoted(other).slice(2) ? unquoted(half).slice(2) : head;
}
// A name that git has put into quotes, or one that it hasn't.
export function unquoted(name) {
  if (!/^".*"$/.test(name)) return name;
  const bytes = [];
  name.slice(1, -1).replace(/\\([0-7]{3}|.)|[^\\]/gu, (all, escaped) => {
    if (!escaped) bytes.push(...new TextEncoder().encode(all));
    else bytes.push(escaped.length === 3 ? parseInt(escaped, 8) : {a: 7, b: 8, t: 9, n: 10, v: 11, f: 12, r: 13}[escaped] ?? escaped.charCodeAt(0));
    return "";
  });
  return new TextDecoder().decode(new Uint8Array(bytes));
}
// Where a line of one patch set stands in another, by their difference without lines around: the line there, or null where it was taken away.
export function moved(file, line) {
  let shift = 0;
  for (const [from, count, to, come] of file?.hunks ?? []) {
    const first = count ? from : from + 1;  // git names the line before, where nothing was taken away
    if (line < first) break;
    if (line < first + count) return line - first < come ? to + line - first : null;
    shift += come - count;
  }
  return line + shift;
}
// What stands at both ends of two lines: how many characters at the beginning, and how many at the end. No character is cut in two.
export function common(text, other) {
  const one = [...text], two = [...other], least = Math.min(one.length, two.length);
  let from = 0, to = 0;
  while (from < least && one[from] === two[from]) from += 1;
  while (to < least - from && one.at(-1 - to) === two.at(-1 - to)) to += 1;
  return [one.slice(0, from).join(""), one.slice(from, one.length - to).join(""), one.slice(one.length - to).join("")];
}
