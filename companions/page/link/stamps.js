/** Stamped lines, by docs/CLIENTS.md: a line says at which moment of the player's own clock it was sent, so that the
 * delay of the network isn't charged. Each character of a stamped line is one byte. */

const KEY = "Timestamp (FICS) v1.0 - programmed by Henrik Gram.";
const SWAPPED = [[0, 11], [2, 9], [4, 7]];
const GROUP = 12;
const CYCLE = 10_000_000; // a stamp is below it, in milliseconds

export const GREETING = "TIMESTAMP|ficsd|browser|";
export const ACKNOWLEDGEMENT = "\x029";

/** The moment now, as a stamp, by a clock that goes on where the page begins anew. */
export function stampNow() {
  return Math.floor(performance.timeOrigin + performance.now()) % CYCLE;
}

/** The stamped line of a text, or of an acknowledgement, without its line feed.
 * @param {string} text @param {number} stamp */
export function sealed(text, stamp) {
  const written = `${text}\x18${stamp}\x19`;
  const bytes = Array.from(written.padEnd(Math.ceil(written.length / GROUP) * GROUP, "1"), (it) => it.charCodeAt(0));
  for (let start = 0; start < bytes.length; start += GROUP) {
    for (const [one, other] of SWAPPED) {
      [bytes[start + one], bytes[start + other]] = [bytes[start + other], bytes[start + one]];
    }
  }
  const coded = bytes.map((byte, place) => (((byte | 0x80) ^ KEY.charCodeAt(place % KEY.length)) - 32) & 0xFF);
  return String.fromCharCode(...coded, 0x80);
}
