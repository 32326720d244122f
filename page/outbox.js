// ---- The outbox: what was not answered yet. It is sent again until it is: the same text twice is one ----

const outbox = [];
const timings = [];  // of each edit: when it began, was answered, was drawn, and was grown, in milliseconds

function sendEdit(body, begun, subject = "") {
  const name = `waiting ${board.fingerprint} ${Date.now()} ${randomDigits(4)}`;
  local.set(name, body);
  addEdit({ path: "edits", name, body, begun, subject });
}

// The line of a stroke as pages write it. Others, of a file that was dropped, are sent as they are, and not drawn.
const STROKE_LINE = /^(place|disc) [0-9a-f-]{36} \d{1,5} [\d:,+-]+$/;

function addEdit(edit) {
  const lines = edit.path === "edits" ? edit.body.split("\n") : [];
  edit.strokes = lines.filter(line => STROKE_LINE.test(line)).map(readStroke);
  edit.withdrawn = lines.filter(line => line.startsWith("withdraw ")).map(line => line.split(" ")[1]);
  outbox.push(edit);
  wake();
  if (nextEdit() === undefined) showWaiting();  // (no answer comes soon)
  else behindEdit(() => { if (outbox.includes(edit)) showWaiting(); });
}

function showWaiting() {
  hover();
  sayBoard();
}

/** Takes up edits for this mask that a page left behind unanswered. */
function recallEdits() {
  const names = local.names().filter(name => name.startsWith(`waiting ${board.fingerprint} `)).sort();
  for (const name of names) {
    const body = local.get(name);
    if (body) addEdit({ path: "edits", name, body, begun: performance.now(), subject: "" });
  }
}

function dropEdit(edit) {
  outbox.splice(outbox.indexOf(edit), 1);
  if (edit.name) local.drop(edit.name);
  redrawOverlay();
}

async function joinFile(file) {
  const bytes = new Uint8Array(await file.arrayBuffer()), text = editTextOf(bytes);
  if (text !== null) return joinText(text, file.name);
  for (const body of fileParts(bytes)) {
    addEdit({ path: "state", name: "", body, begun: performance.now(), subject: file.name, file });
  }
}

/** The text of a file of edits, as they are saved here, or null where it is another file. */
function editTextOf(bytes) {
  const start = new TextDecoder().decode(bytes.subarray(0, 9));
  return /^(;|place |disc |withdraw )/.test(start) ? new TextDecoder().decode(bytes) : null;
}

// A larger file goes in parts of at most so many bytes, one request each, so that others need not wait for all of it.
const MOST_PART = 256 << 10;

function joinText(text, subject) {
  const [, mask] = MASK_LINE.exec(text) ?? [];
  if (mask && mask !== board.fingerprint) return sayFault(`Refused ${subject}: ${FAULTS.D1}.`);
  for (const { first, part } of textParts(text)) {
    sendEdit(part, performance.now(), first > 1 ? `${subject} from line ${first} on` : subject);
  }
}

/** A text in parts, cut between its lines, each with the number of its first line. */
function textParts(text) {
  const parts = [];
  let first = 1;
  for (let start = 0; start < text.length || parts.length === 0;) {
    const last = text.length - start > MOST_PART ? text.lastIndexOf("\n", start + MOST_PART - 1) : text.length - 1;
    const end = last < start ? text.length : last + 1;
    const part = text.slice(start, end);
    parts.push({ first, part });
    first += part.split("\n").length - 1;
    start = end;
  }
  return parts;
}

/** A state file in parts, cut between its frames, each of which stands behind its length. */
function fileParts(bytes) {
  const parts = [];
  let start = 0, end = 0;
  while (end + 2 <= bytes.length) {
    const next = end + 2 + (bytes[end] << 8 | bytes[end + 1]);
    if (next - start > MOST_PART) {
      parts.push(bytes.subarray(start, end));
      start = end;
    }
    end = next;
  }
  return [...parts, bytes.subarray(start)];
}
