/**
 * Each refusal of the service as a sentence for a person: why it was refused, and what to do. If the pawnor reads
 * another one, it is next to it.
 */
import { inPounds } from "./money.js";

/** By code: the name, why, what to do next, and the same for the pawnor where it differs. */
export const REFUSALS = {
  102: { name: "RateTooHigh", why: "The rate is above two per cent a day.", next: "Choose a lower rate." },
  103: {
    name: "KeepTooHigh",
    why: "A charge for safe keeping is above ten pence a day.",
    next: "Choose a lower charge.",
  },
  104: {
    name: "KeepingRate",
    why: "Safe keeping after the end of the period costs more than before it.",
    next: "Make it the same or less.",
  },
  201: {
    name: "BadAmount",
    why: "That amount can’t be taken: it is at least a penny and at most a million pounds.",
    next: "Type another amount.",
  },
  202: {
    name: "FixedSum",
    why: "This pledge is for a fixed sum, so nothing more can be drawn.",
    next: "Take another pledge for more credit.",
  },
  203: {
    name: "OverLimit",
    why: "Drawing that much would pass the limit of the account.",
    next: "Draw less, or record a repayment first.",
  },
  204: { name: "OverOwing", why: "That is more than is owed.", next: "Type what is owed, or less." },
  205: {
    name: "EarlierDay",
    why: "The service’s clock is before the day of this pledge’s last change.",
    next: "Wait for that day, and tell the operator of the service that its clock was wrong.",
  },
  206: {
    name: "EntriesFull",
    why: "This pledge has 9,999 entries and takes no more.",
    next: "It can still be redeemed as a whole.",
  },
  301: {
    name: "SeqTaken",
    why: "Somebody else entered something on this pledge in the meantime.",
    next: "Look at its entries, then do it again.",
  },
  302: {
    name: "SeqAhead",
    why: "The number of this entry is not the next one.",
    next: "Show the pledge again, then do it again.",
  },
  303: {
    name: "Held",
    why: "The pledge is on hold, so it can’t be redeemed.",
    next: "Find out why before you release the hold.",
    pawnor: "The pledge is on hold, so it can’t be redeemed just now. Ask at the shop why.",
  },
  304: {
    name: "Passed",
    why: "The period is over and the article is the shop’s.",
    next: "Nothing more is done on this pledge.",
    pawnor: "The period is over, and the article now belongs to the pawnbroker.",
  },
  305: { name: "Closed", why: "The pledge is redeemed or sold already.", next: "Nothing more is done on it." },
  306: {
    name: "NotRealisable",
    why: "The pledge can’t be sold yet: its period, with the days of grace, is not over.",
    next: "Look under “Due” for the day.",
  },
  307: {
    name: "NotSmall",
    why: "A written statement is enough only for credit up to £75.00.",
    next: "Ask for a sworn declaration.",
  },
  308: {
    name: "SecretUsed",
    why: "The new receipt would have been one that this pledge had before.",
    next: "Do it again: the next one will differ.",
  },
  309: {
    name: "DeclarationsFull",
    why: "This pledge has had 100 new receipts and takes no more.",
    next: "Ask the operator of the service.",
  },
  310: {
    name: "WrongAmount",
    why: "That is not what is owed today.",
    next: "Redeeming requires exactly the sum that is owed.",
  },
  311: {
    name: "NoBooking",
    why: "There is no booking that can be decided on or cancelled.",
    next: "Show the pledge again.",
    pawnor: "There is no visit to cancel. Ask for one first.",
  },
  312: {
    name: "BookingDay",
    why: "That day can’t be booked: it is over, or the article is no longer the pawnor’s on it.",
    next: "Choose another day.",
  },
  313: {
    name: "BadWindow",
    why: "There is no such time of day to book.",
    next: "Choose one of the times on the list.",
  },
  314: {
    name: "PeriodOver",
    why: "The period is over, so nothing more is drawn and the end is not moved.",
    next: "A repayment can still be recorded.",
  },
  315: { name: "NotLater", why: "The new end is before the present end.", next: "Choose a later day." },
  316: {
    name: "ExtensionsFull",
    why: "The period was extended 99 times and can’t be again.",
    next: "Redeem it and take a new pledge.",
  },
  401: {
    name: "NoSuchBook",
    why: "There is no such book, or this is not its key.",
    next: "Check both, the number first.",
  },
  402: {
    name: "NoSuchReceipt",
    why: "That receipt opens no pledge of this book.",
    next: "Find the pledge by its number.",
    pawnor: "This receipt opens no pledge. A newer receipt may have replaced it, the pledge may be redeemed "
      + "already, or a character may be wrong. If the paper is right, ask at the shop.",
  },
  403: {
    name: "NoSuchPledge",
    why: "The book has no pledge of that number.",
    next: "Check the number, or look for your reference.",
  },
  404: {
    name: "BookTaken",
    why: "A book of that number exists already, with another key, name or capacity.",
    next: "Choose another number.",
  },
  405: { name: "NoTerms", why: "The book has no terms yet.", next: "Add terms first, under “Terms”." },
  406: {
    name: "TermsSeq",
    why: "Other terms were put under that version in the meantime, or it is not the next one.",
    next: "Read the book again, then put them as the next version.",
  },
  407: {
    name: "RefTaken",
    why: "Another pledge has that reference.",
    next: "Choose another reference, or find that pledge.",
  },
  408: {
    name: "WindowFull",
    why: "As many visits as the book takes are confirmed for that time.",
    next: "Refuse this one, and ask the pawnor for another time.",
  },
  409: {
    name: "BookNotEmpty",
    why: "The book has terms or pledges already, so nothing was put into it.",
    next: "An import needs an empty book.",
  },
  410: { name: "NotOperator", why: "Only the operator makes books.", next: "Ask the operator of the service." },
  411: {
    name: "TermsFull",
    why: "The book has 99 versions of terms and takes no more.",
    next: "Ask the operator for a new book.",
  },
  412: {
    name: "PledgesFull",
    why: "The book has a million pledges and takes no more.",
    next: "Ask the operator for a new book.",
  },
  490: {
    name: "Full",
    why: "The service has no room for anything more.",
    next: "Tell the operator of the service. What is stored can still be read.",
    pawnor: "The service has no room for this just now. Tell the shop.",
  },
  491: {
    name: "Memory",
    why: "The service was short of memory, and nothing was changed.",
    next: "Show the pledge again, then do it again.",
  },
  492: {
    name: "Store",
    why: "The service could not reach its store.",
    next: "Show the pledge again before you repeat anything, and tell the operator of the service.",
    pawnor: "The service could not reach its books just now. Show your pledge again before you repeat anything.",
  },
  601: {
    name: "Csv",
    why: "A row of the file has too few or too many columns.",
    next: "Use a file as it was exported.",
  },
  602: {
    name: "Columns",
    why: "The file does not begin with the heading of an exported book.",
    next: "Use a file as it was exported.",
  },
  603: {
    name: "BadField",
    why: "A field of the file is not of its form.",
    next: "Use a file as it was exported; a spreadsheet may have changed it.",
  },
  604: {
    name: "Order",
    why: "A row of the file is missing or not in its place.",
    next: "Use a file as it was exported, whole.",
  },
  605: {
    name: "NotReplayable",
    why: "No book can have the rows of this file.",
    next: "Use a file as it was exported.",
  },
  606: { name: "TooMany", why: "The file has more than a book may hold.", next: "Divide it over several books." },
  607: { name: "Read", why: "The file could not be read to its end.", next: "Import it again." },
  701: { name: "BadHead", why: "The request was not one that the service understands.", next: "Load this page again." },
  703: {
    name: "Transfer",
    why: "The request came in pieces, which the service does not take.",
    next: "Tell the operator of the service: the proxy in front of it is not set up.",
  },
  704: { name: "BadLength", why: "The request was longer or shorter than it said.", next: "Do it again." },
  705: {
    name: "BodyTooLong",
    why: "That is more than a mebibyte.",
    next: "A larger book is moved by the operator of the service.",
  },
  706: {
    name: "NoRoute",
    why: "The number or the day is not one that the service has.",
    next: "Check it: a number has no leading zero, a day is from 2000 to 2199.",
  },
  707: { name: "WrongMethod", why: "The service does not do that there.", next: "Load this page again." },
  708: {
    name: "BadBody",
    why: "Something in the form is missing, too long, or not of its form.",
    next: "Check each field: a reference has at most 40 bytes, an article 80.",
  },
  709: {
    name: "BadKey",
    why: "That is no key.",
    next: "A key is 32 digits from 0 to 9 and a to f, plain or with hyphens between groups of 8, 4, 4, 4 and 12.",
  },
  710: {
    name: "BadReceipt",
    why: "That is no receipt.",
    next: "It looks like 3-da41597c-5157-488d-7724-e03fb8d84a37: copy it exactly as it is printed on the paper.",
  },
  711: { name: "TooManyReceipts", why: "Too many receipts were presented at once.", next: "Present one." },
  712: {
    name: "NoReceipt",
    why: "No receipt was presented.",
    next: "Type the receipt exactly as it is printed on the paper.",
  },
};

/** What a refusal's total or row adds. */
function detail({ code, total, row }) {
  if (code === 204 || code === 310) return ` Owed today: ${inPounds(total)}.`;
  return row === undefined ? "" : ` (Row ${row} of the file.)`;
}

/** A refusal as a sentence for the reader of a page, "pawnor" or "broker". */
export function sentence(refusal, reader) {
  const known = REFUSALS[refusal.code];
  if (!known) return `The service refused this (${refusal.code} ${refusal.name}).`;
  if (reader === "pawnor" && known.pawnor) return known.pawnor;
  return `${known.why}${detail(refusal)} ${known.next}`;
}
