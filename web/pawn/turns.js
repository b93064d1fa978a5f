/**
 * Looks at many receipts in turn. A browser joins equal fields of a request into one, which the service takes for no
 * receipt. So one request carries one receipt; and the proxy in front lets each caller ask so often and no more.
 */

/** So many at once, so many without a wait, and then one in so many milliseconds. */
const AT_ONCE = 4;
const AT_FIRST = 15;
const WAIT = 250;

/** Runs the looks, a few at once, and returns the result of each. */
export async function inTurn(looks) {
  const results = new Array(looks.length);
  let next = 0;
  const work = async () => {
    while (next < looks.length) {
      const place = next;
      next += 1;
      if (place >= AT_FIRST) await new Promise((done) => setTimeout(done, WAIT * AT_ONCE));
      results[place] = await looks[place]();
    }
  };
  await Promise.all(Array.from({ length: AT_ONCE }, work));
  return results;
}
