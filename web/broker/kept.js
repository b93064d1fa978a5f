/** What this machine keeps of a shop: nothing of it is secret, and nothing of it is the service's. */
import { current } from "./session.js";

const nameOf = (what) => `${what}-${current()?.book}`;

/** The value that was kept under this name for the open book, or the one to return in its place. */
export function kept(what, otherwise) {
  try {
    return JSON.parse(localStorage.getItem(nameOf(what))) ?? otherwise;
  } catch {
    return otherwise;
  }
}

export const keep = (what, value) => localStorage.setItem(nameOf(what), JSON.stringify(value));
