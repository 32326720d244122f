// ---- Requests ----

// For how many milliseconds a request may move no byte, and what is added for each byte that is sent.
const PATIENCE = 30000, PATIENCE_A_BYTE = .1;

/** That a request has no answer that can be used. A program that does not know the address was started anew. */
class Unanswered extends Error {
  constructor(status) {
    super(`status ${status}`);
    this.isMoved = status === 404;
  }
}

/** The status, headers and bytes of an answer. With each piece of it the time begins anew, and `told` has its size. */
async function request(path, options = {}, told = () => {}) {
  const controller = new AbortController(), sent = options.body?.length ?? 0;
  const giveUpIn = milliseconds => setTimeout(() => controller.abort(), milliseconds);
  let limit = giveUpIn(PATIENCE + sent * PATIENCE_A_BYTE);
  try {
    const response = await fetch(path, { cache: "no-store", signal: controller.signal, ...options });
    const total = Number(response.headers.get("Content-Length"));
    const { status, headers } = response;
    return { status, headers, bytes: await readPieces(response, total, read => {
      clearTimeout(limit);
      limit = giveUpIn(PATIENCE);
      told(read, total);
    }) };
  } catch (fault) {
    throw Object.assign(new Unanswered(0), { isForMemory: fault instanceof RangeError });
  } finally {
    clearTimeout(limit);
  }
}

/** All bytes of an answer that is said to have so many; behind each piece it is told how many were read. */
async function readPieces(response, total, told) {
  const reader = response.body.getReader();
  let bytes = new Uint8Array(total), count = 0;
  for (let next = await reader.read(); !next.done; next = await reader.read()) {
    if (count + next.value.length > bytes.length) bytes = withRoom(bytes, count + next.value.length);
    bytes.set(next.value, count);
    count += next.value.length;
    told(count);
  }
  return bytes.subarray(0, count);
}

/** The same bytes, with room for so many, and for more where there will be more. */
function withRoom(bytes, count) {
  const larger = new Uint8Array(Math.max(count, 2 * bytes.length));
  larger.set(bytes);
  return larger;
}

function bytesOf({ status, bytes }) {
  if (status !== 200) throw new Unanswered(status);
  return bytes;
}

const fetchBytes = async path => bytesOf(await request(path));
