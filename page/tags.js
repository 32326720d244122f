// ---- Tags: of their 32 digits 16 are the author's, 11 the gesture's, two its class, and three count its strokes ----

const CLASS_MARK = "e";  // digit 17 of tags that tell a class; earlier tags do not, and are of class 1
const MOST_COUNTED = 4096;

let author = "";
const YEAR = 365 * 24 * 3600;

/** This browser's number, from a cookie, which all ports of a host share; or else from this port's storage. */
function keptAuthor() {
  const [, inCookie] = /(?:^|; )seedpaint-author=([0-9a-f]{16})(?:;|$)/.exec(document.cookie) ?? [];
  const stored = /^[0-9a-f]{16}$/.exec(local.get("author")) ?? [];
  const kept = inCookie ?? stored[0] ?? randomDigits(8);
  document.cookie = `seedpaint-author=${kept}; Max-Age=${YEAR}; Path=/; SameSite=Strict`;
  local.set("author", kept);
  return kept;
}

function randomDigits(bytes) {
  return Array.from(crypto.getRandomValues(new Uint8Array(bytes)), byte => byte.toString(16).padStart(2, "0")).join("");
}

/**
 * Tags for the strokes of a new gesture. Each begins with its author, which is somebody else where it comes back, and
 * tells its class. The count's upper digit stands before the class, the others behind it.
 */
function newTags(strokes) {
  let gesture = "";
  return strokes.map((stroke, k) => {
    if (k % MOST_COUNTED === 0) gesture = CLASS_MARK + randomDigits(5);
    const count = hexadecimal(k % MOST_COUNTED, 3), inClass = hexadecimal(stroke.inClass ?? 1, 2);
    return hyphenated((stroke.author ?? author) + gesture + count[0] + inClass + count.slice(1));
  });
}

const hexadecimal = (number, digits) => number.toString(16).padStart(digits, "0");
const hyphenated = digits => digits.replace(/^(.{8})(.{4})(.{4})(.{4})/, "$1-$2-$3-$4-");
const digitsOf = tag => tag.replaceAll("-", "").toLowerCase();
const authorOf = tag => digitsOf(tag).slice(0, 16);
const classIn = digits => digits[16] === CLASS_MARK ? Number.parseInt(digits.slice(28, 30), 16) : 0;

/** The class that a tag tells, or 1. */
const classOf = tag => classIn(digitsOf(tag)) || 1;

/** The digits that the tags of all strokes of one gesture begin with, or of one painted label, and no others. */
function gestureOf(tag) {
  const digits = digitsOf(tag), isPainted = digits[12] === "8" && digits[16] === "8";
  return digits.slice(0, isPainted ? 25 : classIn(digits) > 0 ? 27 : 28);
}
