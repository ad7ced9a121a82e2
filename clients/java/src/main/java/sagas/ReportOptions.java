package sagas;

import com.fasterxml.jackson.databind.node.ObjectNode;

/**
 * Options of {@link Client#complete}, {@link Client#fail} and {@link Client#retry}. Begin with {@link
 * #none}.
 *
 * @param isCompensation whether the compensation of the step is meant (default: false)
 * @param note why, for people, or null (default)
 * @param mayBeEarly whether a report that comes before its step begins is stored until then (default:
 *     true). If not, it is {@code StepNotWaiting}.
 */
public record ReportOptions(boolean isCompensation, @Nullable String note, boolean mayBeEarly) {

  /** Returns the defaults. */
  public static ReportOptions none() {
    return new ReportOptions(false, null, true);
  }

  /** Returns these options for the compensation of the step. */
  public ReportOptions ofCompensation() {
    return new ReportOptions(true, note, mayBeEarly);
  }

  /** Returns these options with a note. */
  public ReportOptions withNote(@Nullable String note) {
    return new ReportOptions(isCompensation, note, mayBeEarly);
  }

  /** Returns these options with early reports refused. */
  public ReportOptions refuseEarly() {
    return new ReportOptions(isCompensation, note, false);
  }

  ObjectNode into(ObjectNode body) {
    if (isCompensation) {
      body.put("undo", true);
    }
    if (note != null) {
      body.put("note", note);
    }
    if (!mayBeEarly) {
      body.put("early", false);
    }
    return body;
  }
}
