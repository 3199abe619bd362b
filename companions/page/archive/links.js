/** The ways from the club's page to the archive, where the go-between has one: from the lobby, and from a game that is
 * over. */

import { byId } from "../shell/elements.js";
import { lastAddress } from "./addresses.js";

export class ArchiveLinks {
  /** @param {Session} session */
  constructor(session) {
    this.isThere = false;
    session.on("told", ({ it }) => {
      if ("archive" in it) {
        this.isThere = it.archive === true;
        byId("to-archive").hidden = !this.isThere;
      }
    });
  }

  /** Leads to the game on the board once it has ended, but for one that goes on another day.
   * @param {Game | null} game */
  show(game) {
    const isKept = this.isThere && game?.end != null && game.end.reason !== "adjourned" && game.last > 0;
    byId("archived").hidden = !isKept;
    if (game && isKept) {
      byId("archived").href = lastAddress(game);
    }
  }
}
