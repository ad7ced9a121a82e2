package sagas;

import java.util.Locale;

/** How far a saga is. */
public enum Phase {
  /** The saga has not ended. */
  OPEN,
  /** All went well. */
  COMPLETED,
  /** A plan ended the saga. */
  RECOVERED,
  /** No plan is feasible, and an operator must resolve the saga. */
  STUCK,
  /** An operator resolved the saga. */
  RESOLVED,
  /**
   * Only in filters: recovered sagas of which a compensation failed permanently, until an operator
   * resolves them.
   */
  UNDO_FAILED,
  /** A phase that this version of the package does not have. */
  OTHER;

  /** Returns the word that the service has for it, for example {@code undo_failed}. */
  public String text() {
    return name().toLowerCase(Locale.ROOT);
  }

  static Phase of(String text) {
    for (Phase phase : values()) {
      if (phase.text().equals(text)) {
        return phase;
      }
    }
    return OTHER;
  }
}
