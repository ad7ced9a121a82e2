package sagas;

import com.fasterxml.jackson.core.type.TypeReference;
import com.fasterxml.jackson.databind.JavaType;
import com.fasterxml.jackson.databind.JsonNode;
import java.time.Instant;
import java.util.Map;
import java.util.OptionalInt;

/**
 * One attempt of a step, as its function gets it. It may be used from any thread.
 *
 * @param <I> the type of the saga's input
 */
public sealed class Task<I> permits CompensationTask {
  private final Held held;
  private final Values values;
  private final @Nullable I input;

  Task(Held held, Values values, JavaType type) {
    this.held = held;
    this.values = values;
    this.input = values.read(held.value("input"), type, "input");
  }

  /** Returns the name of the definition. */
  public String saga() {
    return held.text("definition");
  }

  /** Returns the saga's key. */
  public String key() {
    return held.text("key");
  }

  /**
   * Returns the name of the step. If the step has items, the name ends with the number of the item,
   * as {@code ship-2}.
   */
  public String step() {
    return held.text("step");
  }

  /** Returns the step as it was declared: {@code ship}, or {@code hotel/room} of an included saga. */
  public String declaredStep() {
    return held.text("declared_step");
  }

  /** Returns whether this is the compensation of the step. */
  public boolean isCompensation() {
    return held.value("undo").asBoolean();
  }

  /** Returns the number of the attempt, from 1. */
  public int attempt() {
    return held.value("attempt").asInt();
  }

  /** Returns the name of the attempt at the service. */
  public String attemptId() {
    return held.attemptId();
  }

  /**
   * Returns the key to pass to other services. It is the same for all attempts, and another one for
   * the compensation.
   */
  public String idempotencyKey() {
    return held.text("idempotency_key");
  }

  /** Returns the saga's input; null if it is JSON's null. */
  public @Nullable I input() {
    return input;
  }

  /**
   * Returns the results, as JSON, of the steps that this one needs. That of an optional step which
   * failed is {@code {"$failed": "..."}}.
   */
  public Map<String, JsonNode> results() {
    return Values.map(held.value("results"), result -> result);
  }

  /**
   * Returns the result of a step that this one needs.
   *
   * @param step the step's name
   * @param type what Jackson makes of it
   * @return the result; null if it is JSON's null
   * @throws MissingResultException if this step does not need that step
   * @throws StepFailedException if that step is optional and has failed
   * @throws CannotDecodeException if it does not fit the type
   */
  public <T> @Nullable T resultOf(String step, Class<T> type) {
    return resultOf(step, values.typeOf(type));
  }

  /** Returns the result of a step as a generic type; see {@link #resultOf(String, Class)}. */
  public <T> @Nullable T resultOf(String step, TypeReference<T> type) {
    return resultOf(step, values.typeOf(type));
  }

  private <T> @Nullable T resultOf(String step, JavaType type) {
    JsonNode result = held.value("results").get(step);
    if (result == null) {
      throw new MissingResultException(
          "'%s' of this saga does not need the step '%s'".formatted(declaredStep(), step));
    }
    if (Values.failureOf(result) != null) {
      throw new StepFailedException(step, Values.failureOf(result));
    }
    return values.read(result, type, "result of '" + step + "'");
  }

  /**
   * Returns what an optional step raised that this one needs and that has failed; null if it has
   * not failed.
   *
   * @param step the step's name
   */
  public @Nullable String failureOf(String step) {
    return Values.failureOf(held.value("results").path(step));
  }

  /** Returns the number of the step's item, from 0; empty if the step has no items. */
  public OptionalInt index() {
    JsonNode index = held.value("index");
    return index.isInt() ? OptionalInt.of(index.intValue()) : OptionalInt.empty();
  }

  /** Returns the key of the item if the items are of an object, or null. */
  public @Nullable String itemKey() {
    return held.value("item_key").textValue();
  }

  /**
   * Returns the step's item; null if it is JSON's null, or the step has no items.
   *
   * @param type what Jackson makes of it
   * @throws CannotDecodeException if it does not fit the type
   */
  public <T> @Nullable T item(Class<T> type) {
    return index().isEmpty() ? null : values.read(held.value("item"), values.typeOf(type), "item");
  }

  /**
   * Returns what an including saga passes to the step's saga; null if it passes nothing.
   *
   * @param type what Jackson makes of it
   * @throws CannotDecodeException if it does not fit the type
   */
  public <T> @Nullable T given(Class<T> type) {
    JsonNode given = held.value("given");
    return given.isNull() || given.isMissingNode()
        ? null
        : values.read(given, values.typeOf(type), "value that is given");
  }

  /** Returns when the saga is aborted if it has not ended, or null. */
  public @Nullable Instant deadline() {
    return Values.instant(held.task, "deadline_at");
  }

  /** Returns the W3C trace context that the saga was started in, or null. */
  public @Nullable String traceparent() {
    return held.value("traceparent").textValue();
  }

  /**
   * Reports to people how far the function is. The next heartbeat sends it, and only the last report
   * counts. It does not block.
   *
   * @param fraction from 0 to 1; any other number is ignored
   * @param detail a text of which 200 characters are kept, or null
   */
  public void progress(double fraction, @Nullable String detail) {
    if (fraction >= 0 && fraction <= 1) {
      held.progress = new Held.Progress(fraction, detail == null ? null : Report.cut(detail, 200));
    }
  }

  /**
   * Returns why the function should stop, or null. The worker learns of it with a heartbeat, at the
   * latest after a third of the lease.
   *
   * <p>An abort interrupts an attempt once. If the function did not say what happened, it is called
   * again. Then this is {@link StopReason#ABORTED} from the beginning, and the abort does not
   * interrupt it again, so that it can find out what it did. For a compensation, only {@link
   * StopReason#LOST} and {@link StopReason#CLOSING} occur.
   */
  public @Nullable StopReason stopReason() {
    return held.stopReason;
  }

  /** Returns the definition, the key and the step. */
  @Override
  public String toString() {
    return "Task[saga=" + saga() + ", key=" + key() + ", step=" + step() + "]";
  }
}
