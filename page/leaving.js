// ---- Edits that leave the page: as a file, or along to another address in its fragment, which no server sees ----

const ADDRESS = /^http:\/\/127\.0\.0\.1:\d{1,5}\/[0-9a-f]{32}\/$/, FRAGMENT = /^#waiting=([\w-]+)$/;
const MASK_LINE = /^; edits for the mask ([0-9a-f]{32})\r?\n/;
const MOST_FRAGMENT = 1000000;  // browsers take addresses of 1 MiB
const stray = { mask: "", bodies: [] };  // edits for another mask that came along

const waitingBodies = () => outbox.filter(edit => edit.path === "edits").map(edit => edit.body);

/** Gives edits as a file of their lines. Dropped on a page for their mask it is sent. */
function saveEdits(mask, bodies) {
  giveFile("waiting.txt", new Blob([`; edits for the mask ${mask}\n`, ...bodies], { type: "text/plain" }));
}

/** Goes to the address that the program printed, with the edits that wait and what is kept of classes. */
function goTo(address) {
  const waiting = { mask: board.fingerprint, bodies: waitingBodies(), classes: local.get(classesName()) ?? "" };
  const isEmpty = waiting.bodies.length === 0 && waiting.classes === "";
  const fragment = isEmpty ? "" : `#waiting=${toBase64url(JSON.stringify(waiting))}`;
  if (!ADDRESS.test(address)) sayIn("moveFault", "That is no address that the program prints.");
  else if (address === location.origin + location.pathname) sayIn("moveFault", "That is the address of this page.");
  else if (fragment.length > MOST_FRAGMENT) sayIn("moveFault", "Too much waits for that: save it, and drop it there.");
  else location.assign(address + fragment);
}

/** Takes in what came along from another address. What is for another mask stays in the fragment until it is saved. */
function takeAlong() {
  const { mask, bodies, keptOfClasses } = readFragment();
  bringClasses(mask, keptOfClasses);
  if (bodies.length === 0) return mask !== "" && dropFragment();
  if (mask !== board.fingerprint) {
    Object.assign(stray, { mask, bodies });
    return showStray();
  }
  const known = new Set(waitingBodies());
  for (const body of bodies) if (!known.has(body)) sendEdit(body, performance.now());
  dropFragment();
}

function readFragment() {
  try {
    const [, text] = FRAGMENT.exec(location.hash);
    const { mask, bodies, classes: keptOfClasses } = JSON.parse(fromBase64url(text));
    return { mask, keptOfClasses, bodies: bodies.filter(body => typeof body === "string") };
  } catch (_) {
    return { mask: "", keptOfClasses: "", bodies: [] };
  }
}

function showStray() {
  showBanner(`${stray.bodies.length} edits came along from another address. They are for another picture, and are not `
    + "sent. Save them as a file: it can be dropped on a page for their picture.", ["saveStray"]);
}

function saveStray() {
  saveEdits(stray.mask, stray.bodies);
  stray.bodies = [];
  dropFragment();
  hideBanner();
  sayBoard();
}

const dropFragment = () => history.replaceState(null, "", location.pathname);

function toBase64url(text) {
  let characters = "";
  for (const byte of new TextEncoder().encode(text)) characters += String.fromCharCode(byte);
  return btoa(characters).replaceAll("+", "-").replaceAll("/", "_").replaceAll("=", "");
}

function fromBase64url(text) {
  const characters = atob(text.replaceAll("-", "+").replaceAll("_", "/"));
  return new TextDecoder().decode(Uint8Array.from(characters, character => character.charCodeAt(0)));
}
