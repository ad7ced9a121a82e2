package sagas;

import com.fasterxml.jackson.databind.JsonNode;
import java.time.Instant;
import java.util.Map;

/**
 * A saga in a list.
 *
 * @param key its key
 * @param definition the name of its definition
 * @param version the version of its definition; null if the service does not know it
 * @param phase how far it is
 * @param started when it was started
 * @param ended when it ended or got stuck, or null
 * @param deadline when it is aborted if it has not ended, or null
 * @param undoFailed whether a compensation failed permanently
 * @param labels its labels
 * @param note that of the operator who resolved it, or null
 */
public record Summary(
    String key,
    String definition,
    @Nullable Integer version,
    Phase phase,
    @Nullable Instant started,
    @Nullable Instant ended,
    @Nullable Instant deadline,
    boolean undoFailed,
    Map<String, String> labels,
    @Nullable String note) {

  static Summary of(JsonNode saga) {
    return new Summary(
        saga.path("key").asText(),
        saga.path("definition").asText(),
        saga.path("version").isInt() ? saga.path("version").asInt() : null,
        Phase.of(saga.path("phase").asText()),
        Values.instant(saga, "started_at"),
        Values.instant(saga, "ended_at"),
        Values.instant(saga, "deadline_at"),
        saga.path("undo_failed").asBoolean(),
        Values.map(saga.path("labels"), JsonNode::asText),
        Values.text(saga, "note"));
  }
}
