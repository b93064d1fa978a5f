#!/usr/bin/env node
/**
 * A broker's day: terms, a pledge, a repayment over the counter, tomorrow's bookings, and the book as rows in the
 * evening.
 *
 * usage: broker_day.mjs URL BOOK KEY [LOST]      or the variables PLEDGE_URL, PLEDGE_BOOK and PLEDGE_KEY
 *
 * LOST is the number of a pledge whose receipt was lost. Run twice on one day, it does everything else once.
 */
import { Book, Lost, Refused, day, lines, money, nextEntry, settings, stop } from "./client.mjs";

const MAY_BE_MADE = "no reply: a new receipt may have been made. Declare again only if the pawnor did not get it.";
const TERMS = { keep_after: 0, keep_before: 0, rate: 2667, version: 1 };

/** What a request gives, or null where it is refused for one of these reasons, each with what it does then. */
async function unless(asked, reasons) {
  try {
    return await asked;
  } catch (why) {
    if (!(why instanceof Refused) || !reasons[why.code]) throw why;
    return reasons[why.code](why);
  }
}

/** The first terms, which may stand already: with the same numbers they are answered again. */
async function putTerms(book) {
  const done = await unless(book.post("/terms", TERMS), { 406: () => null });
  console.log(done ? `terms ${done.version}` : "the book has other terms, and they stay");
}

/** A pledge under a reference of our own, by which a repeat is known: it never makes a second pledge. */
async function takeIn(book) {
  const opening = { article: "Gold ring", five_days: true, kind: "fixed", pence: 10000, ref: `${day()} 1` };
  const { number, receipt } = await book.post("/pledges", opening);
  console.log(`pledge ${number} receipt ${receipt}`);
  return number;
}

/** Ten pounds, under a number of our own, so that they are never entered twice; and then too much. */
async function counter(book, number) {
  const entry = await book.post(`/pledges/${number}/repay`, { pence: 1000, seq: 1 });
  console.log(`repaid ${money(entry.pence)} on ${entry.day}`);
  const seq = nextEntry(await book.get(`/pledges/${number}`));
  await unless(book.post(`/pledges/${number}/repay`, { pence: 1_000_000, seq }), {
    204: (why) => console.log(`too much: owing is ${money(why.said.total)}`),
    305: () => console.log("the pledge is closed by now"),
  });
}

/** Confirms what is asked for tomorrow, as long as there is room, and refuses the rest. */
async function bookings(book) {
  for (const line of lines(await book.get(`/days/${day(1)}`))) {
    const [, number, window] = line.match(/^Pledge (\d+) window (\d+)$/) ?? [];
    if (number === undefined) continue;
    const decide = (yes) => book.post(`/pledges/${number}/decide`, { yes });
    const said = await unless(decide(true), { 408: () => decide(false) });
    console.log(`booking of pledge ${number} for window ${window} ${said.booking}`);
  }
}

/** A new receipt. It is never sent again by itself: a second one would make the first new receipt worthless. */
async function declareLost(book, number) {
  try {
    const said = await book.post(`/pledges/${number}/declare`, { paper: "sworn" }, false);
    console.log(`new receipt ${said.receipt}`);
  } catch (why) {
    if (!(why instanceof Lost)) throw why;
    console.log(why.sent ? MAY_BE_MADE : "nothing was sent, so no receipt was made");
  }
}

async function evening(book) {
  process.stdout.write(await book.get(`/days/${day()}`));
  const rows = lines(await book.get("/export"));
  const count = (kind) => rows.filter((row) => row.startsWith(kind)).length;
  console.log(`the book has ${count("P,")} pledges and ${count("E,")} entries`);
}

const USAGE = "broker_day.mjs URL BOOK KEY [LOST]";
const [url, number, key, ...lost] = settings(USAGE, "PLEDGE_URL", "PLEDGE_BOOK", "PLEDGE_KEY");
const book = new Book(url, number, { "Pledge-Key": key });
try {
  await putTerms(book);
  await counter(book, await takeIn(book));
  await bookings(book);
  for (const one of lost) await declareLost(book, one);
  await evening(book);
} catch (why) {
  if (!(why instanceof Refused || why instanceof Lost)) throw why;
  stop(`stopped: ${why.message}`);
}
