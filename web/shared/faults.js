/** Why a request gets no answer, and the sentences that a person reads then. */
import { sentence } from "./refusals.js";
import { Unreadable } from "./unreadable.js";

/** The service refused: its code, its name, and the total or the row that it named. Nothing was changed. */
export class Refused extends Error {
  constructor({ code, name, total, row }) {
    super(`${code} ${name}`);
    Object.assign(this, { code, name, total, row });
  }
}

/** The request did not reach the service. Its message says whether it was a look, or a command that was not done. */
export class NotReached extends Error {}

/** The request may have reached the service, but no reply came back. */
export class Lost extends Error {}

/**
 * The pledge is not as it was shown, so the command was not sent. The message says what changed, and `field` is the
 * name of what is to be typed anew, or null.
 */
export class Outdated extends Error {
  constructor(message, field = null) {
    super(message);
    this.field = field;
  }
}

export const CHANGED = "Since this pledge was shown here, it has changed.";

/** The result of a look before a command is sent. If the look does not reach the service, the command was not sent. */
export const lookFirst = (look) => look.catch((fault) => {
  throw fault instanceof NotReached ? new NotReached("command") : fault;
});

/** Whether a fault is of a look alone: nothing was to be done. */
export const isFailedLook = (fault) => fault instanceof NotReached && fault.message === "look";

/** A look that failed, by itself or after a command was sent: of the command it says nothing. */
const UNSEEN = "The service can’t be reached just now. Try again in a minute.";

/** A fault as a sentence for the reader of a page, "pawnor" or "broker". */
export function tellFault(fault, reader) {
  if (fault instanceof Refused) return sentence(fault, reader);
  if (fault instanceof Unreadable || fault instanceof Outdated) return fault.message;
  if (fault instanceof NotReached) return isFailedLook(fault)
    ? UNSEEN
    : "The service could not be reached. What you asked for was not sent, so it was not done.";
  if (fault instanceof Lost) {
    return "The reply was lost, so this may have been done. Look at the pledge before you do it again.";
  }
  return `This page did not understand what came back (${fault.message}). `
    + "Look at the pledge before you do anything again.";
}

/**
 * The result of a command that was sent. If its reply was lost, the pledge is read again: `seen` returns the result if
 * the pledge shows that the command was done, and null if not.
 */
export async function orSeen(sent, read, seen) {
  try {
    return await sent;
  } catch (fault) {
    if (!(fault instanceof Lost)) throw fault;
    const result = seen(await read().catch(() => { throw fault; }));
    if (result === null) throw fault;
    return `The reply was lost, but the pledge, read again, shows that it was done. ${result}`;
  }
}

/** The field of a form that a refusal speaks of, by its code. */
const FIELDS = {
  102: "rate", 103: "before", 104: "after", 201: "amount", 203: "amount", 204: "amount", 310: "amount", 307: "paper",
  312: "day", 313: "window", 315: "until", 401: "key", 407: "ref", 408: null, 402: "receipt", 710: "receipt",
};

/** The name of the field that a fault speaks of, or null. */
export function fieldOf(fault) {
  if (fault instanceof Refused) return FIELDS[fault.code] ?? null;
  return fault instanceof Unreadable || fault instanceof Outdated ? fault.field : null;
}
