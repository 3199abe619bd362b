/** Passwords. The server drops the blanks at the ends of a line that makes an account, but none of a password that is
 * typed at the login: so the page takes no password that begins or ends with one, at either door. */

/** Whether a password can be used as it stands.
 * @param {string} text */
export function isPassword(text) {
  return text !== "" && text === text.trim();
}

/** The password of a line that makes an account, with all its blanks.
 * @param {string} line */
export function passwordOf(line) {
  return line.trimStart().replace(/^\S+ ?/, "");
}
