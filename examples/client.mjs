/**
 * A small client of the pledge books for node, without packages: it tells refusals by their code, and what to do
 * where no reply came.
 */
import http from "node:http";
import https from "node:https";

const TRIES = 3;
const PAUSE = 0.5;
const PATIENCE = 30;
/** The proxy's own refusals that may be over soon. */
const PASSING = [429, 502, 503, 504];
/** Memory ran out, or the store failed: the next start of the service may find that the request was done. */
const UNSETTLED = [491, 492];

/**
 * The service refused a request, and changed nothing by it. Where `repeated` is set, an earlier sending got no
 * reply, and may have been done.
 */
export class Refused extends Error {
  constructor(said, repeated) {
    super(`${said.code} ${said.name}`);
    Object.assign(this, { code: said.code, said, repeated });
  }
}

/** No reply of the service came, or it was 491 or 492. Where `sent` is set the request may have been done, and else it was not. */
export class Lost extends Error {
  constructor(words, sent) {
    super(words);
    this.sent = sent;
  }
}

/**
 * No process accepted the connection, or the proxy kept the request back, so it was not done. `pause` is how long to
 * wait; null is for ever.
 */
class NotHandedOn extends Error {
  constructor(words, pause) {
    super(words);
    this.pause = pause;
  }
}

/** One book of a service at a URL, with the field of its caller: a `Pledge-Key`, or a `Pledge-Receipt`. */
export class Book {
  constructor(url, number, fields) {
    Object.assign(this, { url: `${url}/books/${number}`, fields });
  }

  get(path) {
    return this.ask("GET", path);
  }

  /**
   * `repeat` is whether the request may be sent again where it may have been done, as `x-repeat` of the description
   * says.
   */
  post(path, body, repeat = true) {
    return this.ask("POST", path, body, repeat);
  }

  /** What the reply says: JSON as what it is, a text as it is. */
  async ask(method, path, body, repeat = true) {
    let sent = false;
    let why;
    for (let left = TRIES - 1; left >= 0; left -= 1) {
      let pause = PAUSE;
      try {
        const said = told(await once(method, this.url + path, this.fields, body));
        if (said.code) throw new Refused(said, sent);
        return said;
      } catch (fault) {
        if (fault instanceof Refused) throw fault;
        why = fault;
        if (fault instanceof NotHandedOn) pause = fault.pause;
        else sent = true;
      }
      if (pause === null || (sent && !repeat)) break;
      if (left > 0) {
        console.error(`no reply to ${method} ${path}; sent again`);
        await new Promise((done) => setTimeout(done, 1000 * pause));
      }
    }
    throw new Lost(`no reply to ${method} ${path}: ${why.message}`, sent);
  }
}

/** Sends a request once. Without an agent it has a connection of its own, with `Connection: close`. */
function once(method, url, fields, body) {
  return new Promise((done, failed) => {
    const text = body === undefined ? "" : JSON.stringify(body);
    const headers = { ...fields, ...(text && { "Content-Length": Buffer.byteLength(text) }) };
    const library = url.startsWith("https:") ? https : http;
    const request = library.request(url, { method, headers, agent: false, timeout: 1000 * PATIENCE }, (reply) => {
      let said = "";
      reply.setEncoding("utf8");
      reply.on("data", (piece) => { said += piece; });
      reply.on("end", () => done({ status: reply.statusCode, headers: reply.headers, said }));
      reply.on("error", failed);
    });
    let connected = false;
    const event = library === https ? "secureConnect" : "connect";
    request.on("socket", (socket) => socket.once(event, () => { connected = true; }));
    request.on("timeout", () => request.destroy(new Error("it took too long")));
    const unmade = (why) => new NotHandedOn(`no connection was made: ${why.message || why.code}`, PAUSE);
    request.on("error", (why) => failed(connected ? why : unmade(why)));
    request.end(text);
  });
}

/**
 * What a reply of the service says. After 491 and 492 it is not known whether the request was done, as after no reply. A
 * reply of the proxy's own is a fault: it says whether the request was handed on.
 */
function told({ status, headers, said }) {
  const value = headers["content-type"] === "application/json" ? JSON.parse(said) : said;
  if (UNSETTLED.includes(value.code)) throw new Error(`${value.code} ${value.name}`);
  if (status === 200 || value.code) return value;
  if (value.handed_on === false) {
    const pause = PASSING.includes(status) ? Number(headers["retry-after"] ?? PAUSE) : null;
    throw new NotHandedOn(`the proxy said ${status}`, pause);
  }
  throw new Error(`${status} in a reply that is not the service's`);
}

/** The words of the command line, or else the variables of the environment with these names. */
export function settings(usage, ...names) {
  const words = process.argv.slice(2);
  const found = words.length > 0 ? words : names.map((name) => process.env[name]);
  if (found.length < names.length || found.includes(undefined)) {
    console.error(`usage: ${usage}\nor the variables ${names.join(", ")}`);
    process.exit(1);
  }
  return found;
}

export const money = (pence) => `${Math.floor(pence / 100)}.${String(pence % 100).padStart(2, "0")}`;

/** The lines of a text of the service. They end with LF alone: an article may contain other line ends. */
export const lines = (text) => text.split("\n").slice(0, -1);

/** The rest of the statement's line that begins with this word. */
export const value = (statement, label) => {
  const found = lines(statement).find((line) => line.startsWith(`${label} `));
  return found.slice(label.length + 1);
};

/** Pounds and pence of a statement, as pence. */
export const pence = (amount) => Number(amount.replace(".", ""));

/** The number that the next entry has. */
export const nextEntry = (statement) => 1 + lines(statement).filter((line) => line.startsWith("Entry ")).length;

/** A day, so many after today, in UTC. */
export const day = (later = 0) => new Date(Date.now() + later * 86_400_000).toISOString().slice(0, 10);

/** Ends the program by what the last request met. */
export function stop(words) {
  console.error(words);
  process.exitCode = 1;
}
