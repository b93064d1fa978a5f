// Shows the pledges of some receipts.
//
// usage: node show.mjs http://localhost:8080 BOOK RECEIPT..
const [base, book, ...receipts] = process.argv.slice(2);
for (const receipt of receipts) {
  // The service answers one connection at a time, so each request asks for its connection to be closed. `fetch` joins
  // several receipts by a comma, which the service refuses (710): send one request for each.
  const headers = { "Pledge-Receipt": receipt, Connection: "close" };
  const reply = await fetch(`${base}/books/${book}/held`, { headers });
  console.log(reply.status, await reply.text());
}
