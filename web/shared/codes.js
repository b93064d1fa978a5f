/** The service's refusals that the pages distinguish, by the names that the service uses. */
import { Refused } from "./faults.js";

export const CODES = {
  RateTooHigh: 102, KeepTooHigh: 103, KeepingRate: 104, BadAmount: 201, OverLimit: 203, OverOwing: 204, Held: 303,
  Passed: 304, Closed: 305, NotRealisable: 306, NotSmall: 307, PeriodOver: 314, NoSuchReceipt: 402, NoSuchPledge: 403, NoTerms: 405,
  RefTaken: 407, Columns: 602, NoRoute: 706, BadReceipt: 710,
};

/** Whether a fault is one of these refusals. */
export const isRefusal = (fault, ...codes) => fault instanceof Refused && codes.includes(fault.code);

/** The refusal of this name, where a page knows before it asks that the service would return it. */
export const refusalOf = (name, more = {}) => new Refused({ code: CODES[name], name, ...more });
