// ---- Naming: what the picture is called, in the window's title, in the footer and in what Save gives ----

const SHOWN_NAME = 40;  // so many signs of a name at most stand in the footer
const MOST_SIGNS = 200;  // and so many a name has

/** Shows the name that was typed for this mask, or else that of its file. Without either the footer has none. */
function showName() {
  const name = element("pictureName").value.trim() || board.name, size = `${board.width} × ${board.height}`;
  document.title = name ? `${name} · Seedpaint ${size}` : `Seedpaint ${size}`;
  sayIn("name", name.length > SHOWN_NAME ? `${name.slice(0, SHOWN_NAME)}…` : name);
  element("save").download = `${stemOf(pictureName())}.spd`;
}

// ---- The name in a header ----

const IN_QUOTES = /"(?:\\.|[^"\\])*"/g;
const NAME_IN_HEADER = /(?:^|;)\s*filename\*\s*=\s*UTF-8'[\w-]*'((?:%[\da-f]{2}|[\w!#$&+.^`|~-])*)\s*(?:;|$)/i;
const UNSEEN = /[\p{Cc}\p{Zl}\p{Zp}\u200e\u200f\u202a-\u202e\u2066-\u2069]/gu;  // they control a text, or turn it round

/** The name of a file that a `Content-Disposition` tells (RFC 6266, RFC 8187), without folders, or "". */
function nameInHeader(text) {
  const [, spelled] = NAME_IN_HEADER.exec((text ?? "").replace(IN_QUOTES, "")) ?? [];
  if (!spelled) return "";
  try {
    const name = decodeURIComponent(spelled).split(/[/\\]/).at(-1).replace(UNSEEN, "").trim();
    return /^\.*$/.test(name) ? "" : [...name].slice(0, MOST_SIGNS).join("");
  } catch (_) {
    return "";
  }
}
