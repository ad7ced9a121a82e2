package sagas;

import com.fasterxml.jackson.databind.JsonNode;
import java.time.Instant;
import java.util.List;

/**
 * What an operator or an approver decided, on one saga or on several.
 *
 * @param number its position: a later decision has a larger number
 * @param decision what was decided, for example {@code retry}
 * @param at when
 * @param by who decided; null if a program did not say
 * @param via the way: {@code dashboard}, {@code http}, {@code command} or {@code program}
 * @param note the reason, or null
 * @param isBulk whether it was one decision on several sagas
 * @param subject on what it was, if on no saga: the scope of a pause; else null
 * @param sagas at most 1,000 of the sagas
 */
public record Decision(
    long number,
    String decision,
    @Nullable Instant at,
    @Nullable String by,
    String via,
    @Nullable String note,
    boolean isBulk,
    @Nullable String subject,
    List<DecidedSaga> sagas) {

  static Decision of(JsonNode entry) {
    return new Decision(
        entry.path("number").asLong(),
        entry.path("decision").asText(),
        Values.instant(entry, "time"),
        Values.text(entry, "by"),
        entry.path("via").asText(),
        Values.text(entry, "note"),
        entry.path("bulk").asBoolean(),
        Values.text(entry, "subject"),
        Values.list(entry.path("sagas"), DecidedSaga::of));
  }
}
