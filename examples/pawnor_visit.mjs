#!/usr/bin/env node
/**
 * A pawnor's visit: looks at a pledge by its receipt, asks for a window tomorrow, pays ten pounds, redeems the rest.
 *
 * usage: pawnor_visit.mjs URL BOOK RECEIPT      or the variables PLEDGE_URL, PLEDGE_BOOK and PLEDGE_RECEIPT
 *
 * Who has the receipt has the article, so better say it by the environment: others of the machine see a command line.
 */
import { createInterface } from "node:readline/promises";
import { Book, Lost, Refused, day, money, nextEntry, pence, settings, stop, value } from "./client.mjs";

const SEEMS = "redeemed, it seems: the reply was lost, and the receipt is not live any more. The broker can tell.";

/** A window of tomorrow. Asked again for the same one nothing changes, so it may be repeated. */
async function askForTomorrow(book) {
  try {
    const said = await book.post("/held/ask", { day: day(1), window: 3 });
    console.log(`window ${said.window} of ${said.day} ${said.booking}`);
  } catch (why) {
    if (!(why instanceof Refused)) throw why;
    console.log(`no booking: ${why.message}`);
  }
}

/** Pays once: the number of the entry is taken from the statement before the first sending, and stays in a repeat. */
async function pay(book, amount) {
  const entry = { pence: amount, seq: nextEntry(await book.get("/held")) };
  try {
    const said = await book.post("/held/repay", entry);
    console.log(`repaid ${money(said.pence)} as entry ${said.seq}`);
  } catch (why) {
    if (why.code === 204) console.log(`that is more than is owing: ${money(why.said.total)}`);
    else if (why.code === 301) console.log("another entry came first; look at the statement");
    else throw why;
  }
}

/** Whether a person says yes. The end of the input means no. */
async function agreed(question) {
  process.stdout.write(`${question} `);
  const reader = createInterface({ input: process.stdin });
  const { value: said } = await reader[Symbol.asyncIterator]().next();
  reader.close();
  console.log();
  return said?.trim() === "yes";
}

/**
 * Pays all that is owing. A repeat can't pay twice: where the first was done it is refused as 402, since the
 * receipt was surrendered. Where another sum is owing by now, as on the next day, it is paid only if a person says
 * so.
 */
async function redeem(book) {
  let paid = pence(value(await book.get("/held"), "Owing"));
  for (;;) {
    try {
      const said = await book.post("/held/redeem", { paid });
      return console.log(`redeemed on ${said.redeemed} for ${money(said.paid)}`);
    } catch (why) {
      if (why.code === 303) return console.log("the broker holds it back");
      if (why.code === 402 && why.repeated) return console.log(SEEMS);
      if (why.code !== 310) throw why;
      const { total } = why.said;
      const question = `Owing is ${money(total)} now, and not ${money(paid)}. Pay that? (yes)`;
      if (!await agreed(question)) return console.log("not redeemed");
      paid = total;
    }
  }
}

const USAGE = "pawnor_visit.mjs URL BOOK RECEIPT";
const [url, number, receipt] = settings(USAGE, "PLEDGE_URL", "PLEDGE_BOOK", "PLEDGE_RECEIPT");
const book = new Book(url, number, { "Pledge-Receipt": receipt });
try {
  process.stdout.write(await book.get("/held"));
  await askForTomorrow(book);
  await pay(book, 1000);
  await redeem(book);
} catch (why) {
  if (why instanceof Refused) stop(why.code === 402 ? "this receipt is not live" : `stopped: ${why.message}`);
  else if (why instanceof Lost) stop(`stopped: ${why.message}`);
  else throw why;
}
