/**
 * What a person typed is not of its form, or of no use. The message says why, `field` is the name of its field,
 * and `later` promises a better sentence, or null.
 */
export class Unreadable extends Error {
  constructor(message, field = null, later = null) {
    super(message);
    Object.assign(this, { field, later });
  }
}
