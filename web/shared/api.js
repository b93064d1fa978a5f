/** Requests to the service at the same origin. */
import { compareClock } from "./clock.js";
import { Lost, NotReached, Refused } from "./faults.js";

/** How long to wait before a request is repeated, in milliseconds, in turn; and when it is repeated no more. */
const WAITS = [300, 1000, 2500];
const GIVE_UP = 15_000;
/** A reply of which nothing comes for so many milliseconds is not waited for. */
const SILENCE = 15_000;

const pause = (milliseconds) => new Promise((done) => setTimeout(done, milliseconds));

/** Ends a request after so many silent milliseconds. */
class Patience {
  constructor(most) {
    this.most = most;
    this.ending = new AbortController();
    this.renew();
  }

  renew() {
    clearTimeout(this.timer);
    this.timer = setTimeout(() => this.ending.abort(), this.most);
  }

  end() {
    clearTimeout(this.timer);
  }
}

/**
 * A reply's text, read piece by piece. `watch` is called with the number of bytes that came and that of all. Once
 * `enough` accepts the text, the rest is not read.
 */
async function readPieces(reply, patience, { watch, enough }) {
  const whole = Number(reply.headers.get("Content-Length"));
  const decoder = new TextDecoder("utf-8", { ignoreBOM: true });
  const reader = reply.body.getReader();
  let text = "";
  let count = 0;
  for (let piece = await reader.read(); !piece.done; piece = await reader.read()) {
    patience.renew();
    text += decoder.decode(piece.value, { stream: true });
    count += piece.value.length;
    watch?.({ count, whole, text });
    if (enough?.(text)) {
      reader.cancel().catch(() => {});
      return text;
    }
  }
  if (whole > 0 && count !== whole) throw new Error("the reply was cut");
  return text + decoder.decode();
}

async function readReply(reply, patience, reading) {
  const { status } = reply;
  const type = reply.headers.get("Content-Type") ?? "";
  const inPieces = status === 200 && (reading.watch || reading.enough);
  return { status, type, text: inPieces ? await readPieces(reply, patience, reading) : await reply.text() };
}

/**
 * A browser sends a request without credentials over a connection of its own. So a large reply, over HTTP/2, does not
 * delay the small ones, which share the connection over which the page came. (There are no cookies either way.)
 *
 * One attempt: the answer, a refusal, or whether the request may have reached the service without a reply coming back.
 */
async function attempt({ method, path, fields, body, watch, enough, isLarge = false, silence = SILENCE }) {
  const patience = new Patience(silence);
  const credentials = isLarge ? "omit" : "same-origin";
  const how = { cache: "no-store", credentials, redirect: "error", referrerPolicy: "no-referrer" };
  let found;
  try {
    const sent = Date.now();
    const reply = await fetch(path, { method, headers: fields, body, signal: patience.ending.signal, ...how });
    compareClock(reply.headers.get("Date"), sent, Date.now());
    patience.renew();
    found = await readReply(reply, patience, { watch, enough });
  } catch {
    return { handedOn: true };
  } finally {
    patience.end();
  }
  const { status, type, text } = found;
  // No reply of the service is empty: of this one the browser got only the beginning of its head.
  if (text === "") return { handedOn: true };
  const said = type.startsWith("application/json") ? JSON.parse(text) : null;
  if (status === 200) return { answer: { text, said } };
  if (said?.code) return { refusal: new Refused(said) };
  return { handedOn: said?.handed_on !== false };
}

/**
 * Asks the service, and returns the reply's text and, if it is JSON, its value.
 *
 * A request that did not reach the service is sent again, since nothing was done. A request whose reply was lost is
 * sent again only where a repeat is harmless. Throws Refused, NotReached or Lost. `watch` and `enough` are of
 * readPieces, `silence` is how long to wait for a piece of the reply; `isLarge` says that the reply is large.
 */
export async function ask({ harmless, ...request }) {
  const isLook = request.method === "GET";
  const begun = Date.now();
  let handedOn = false;
  for (let turn = 0; turn <= WAITS.length; turn += 1) {
    const outcome = await attempt(request);
    if (outcome.answer) return outcome.answer;
    // An earlier attempt whose reply was lost may have been done all the same.
    if (outcome.refusal) throw Object.assign(outcome.refusal, { mayBeDone: handedOn && !isLook });
    handedOn ||= outcome.handedOn;
    if (handedOn && !(harmless ?? isLook)) break;
    if (Date.now() - begun >= GIVE_UP) break;
    if (turn < WAITS.length) await pause(WAITS[turn]);
  }
  if (handedOn && !isLook) throw new Lost("no reply");
  throw new NotReached(isLook ? "look" : "command");
}
