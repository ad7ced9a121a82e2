package sagas;

import com.fasterxml.jackson.databind.JsonNode;
import java.time.Instant;

/**
 * What happened to a saga.
 *
 * @param event its name; {@code note} for what a person did
 * @param at when it happened
 * @param step the step, or null
 * @param value what belongs to it, or JSON's null
 */
public record HistoryEvent(
    String event, @Nullable Instant at, @Nullable String step, JsonNode value) {

  static HistoryEvent of(JsonNode event) {
    return new HistoryEvent(
        event.path("event").asText(),
        Values.instant(event, "time"),
        Values.text(event, "step"),
        event.path("value"));
  }
}
