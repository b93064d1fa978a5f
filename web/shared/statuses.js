/** The statuses of a pledge on a day: whether it is open, and the name of the status in a list. */

export const STATUSES = {
  inside: { isOpen: true, name: "in its period" },
  grace: { isOpen: true, name: "in grace" },
  realisable: { isOpen: true, name: "can be sold" },
  passed: { isOpen: false, name: "passed" },
  redeemed: { isOpen: false, name: "redeemed" },
  sold: { isOpen: false, name: "sold" },
};

/** Whether a pledge of this status can be redeemed, and its visits be decided on. */
export const isOpen = (status) => STATUSES[status].isOpen;

/** Whether a hold bars something: once a pledge is closed or its article has passed, nothing is redeemed any more. */
export const isBarred = ({ held, status }) => held && isOpen(status);
