/**
 * The shop's name, its address, the name of this till, and the sum from which an entry is asked about, kept in this
 * browser for each book. None of them is secret.
 */
import { byId } from "../shared/dom.js";
import { onSend } from "../shared/forms.js";
import { LARGE_PENCE, readPounds } from "../shared/money.js";
import { isReceiptLike } from "../shared/receipts.js";
import { Unreadable } from "../shared/unreadable.js";
import { keep, kept } from "./kept.js";

const NONE = { name: "", address: "", till: "", ask: "" };

/** What is known of the shop; each an empty text where it was not said. */
export const shop = () => ({ ...NONE, ...kept("shop", {}) });

/** From this many pence on, an entry is asked about. */
export const askFrom = () => (shop().ask === "" ? LARGE_PENCE : readPounds(shop().ask));

/** Keeps what was said, and leaves the rest. */
export function keepShop(said) {
  const trimmed = Object.entries(said).map(([name, text]) => [name, text.trim()]);
  keep("shop", { ...shop(), ...Object.fromEntries(trimmed) });
}

/** A scanner types into the field that has the focus. A receipt there would be printed on the papers of others. */
export function refuseReceipts(texts) {
  const [field] = Object.entries(texts).find(([, text]) => isReceiptLike(text)) ?? [];
  if (field) throw new Unreadable("That is a receipt, which would be printed on other papers. Clear the field.", field);
}

export function setUpShop(changed) {
  onSend(byId("shop-form"), "broker", async ({ name, address, till, ask }) => {
    if (ask.trim()) readPounds(ask, "ask");
    refuseReceipts({ name, address, till });
    keepShop({ name, address, till, ask });
    showShop();
    byId("shop-form").reset();
    changed();
    return "Kept in this browser. Receipts that are printed from now on have it.";
  });
}

/** Shows what is kept; what was typed and not sent stays. */
export function showShop() {
  const { elements } = byId("shop-form");
  for (const [name, text] of Object.entries(shop())) {
    const field = elements[name];
    if (field && field.value === field.defaultValue) field.value = text;
    if (field) field.defaultValue = text;
  }
}
