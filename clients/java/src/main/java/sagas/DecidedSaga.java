package sagas;

import com.fasterxml.jackson.databind.JsonNode;

/**
 * A saga of a decision.
 *
 * @param key its key
 * @param definition the name of its definition
 * @param step the step; null if the saga itself is meant
 * @param undo whether the compensation of the step is meant
 * @param answer {@code done}, {@code refused} or {@code waiting}
 */
public record DecidedSaga(
    String key, String definition, @Nullable String step, boolean undo, String answer) {

  static DecidedSaga of(JsonNode saga) {
    return new DecidedSaga(
        saga.path("key").asText(),
        saga.path("definition").asText(),
        Values.text(saga, "step"),
        saga.path("undo").asBoolean(),
        saga.path("answer").asText());
  }
}
