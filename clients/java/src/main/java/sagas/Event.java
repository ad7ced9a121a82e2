package sagas;

import com.fasterxml.jackson.databind.JsonNode;
import com.fasterxml.jackson.databind.node.MissingNode;
import java.time.Duration;
import java.time.Instant;

/**
 * What happened, as the stream of the service has it.
 *
 * @param id the place in the stream: pass it to {@link EventFilter#withAfter}
 * @param name the event's name, for example {@code saga_ended}, or {@link #MISSED}
 * @param at when it happened, or null
 * @param key the saga's key, or null
 * @param saga the name of its definition, or null
 * @param step the step's name, or null
 * @param isCompensation whether the compensation is meant
 * @param attempt the number of the attempt, or null
 * @param duration how long the function took, or null if the service did not call it
 * @param detail what was raised, planned or found, or null
 * @param data the whole event as JSON
 */
public record Event(
    String id,
    String name,
    @Nullable Instant at,
    @Nullable String key,
    @Nullable String saga,
    @Nullable String step,
    boolean isCompensation,
    @Nullable Integer attempt,
    @Nullable Duration duration,
    @Nullable String detail,
    JsonNode data) {
  /** The name of the event that says that some events are lost. Look at the sagas themselves. */
  public static final String MISSED = "missed";

  static Event of(String name, String id, String text) {
    JsonNode tree = Values.tree(text.getBytes(java.nio.charset.StandardCharsets.UTF_8));
    JsonNode data = tree == null ? MissingNode.getInstance() : tree;
    return new Event(
        id,
        name,
        data.path("at").isNumber() ? instant(data.path("at").asDouble()) : null,
        Values.text(data, "key"),
        Values.text(data, "saga"),
        Values.text(data, "step"),
        data.path("undo").asBoolean(),
        data.path("attempt").isInt() ? data.path("attempt").asInt() : null,
        data.path("seconds").isNumber()
            ? Duration.ofNanos((long) (data.path("seconds").asDouble() * 1e9))
            : null,
        Values.text(data, "detail"),
        data);
  }

  private static Instant instant(double seconds) {
    return Instant.ofEpochSecond(0, (long) (seconds * 1e9));
  }
}
