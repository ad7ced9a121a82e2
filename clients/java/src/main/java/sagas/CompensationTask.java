package sagas;

import com.fasterxml.jackson.databind.JavaType;

/**
 * One attempt of a compensation, as its function gets it.
 *
 * @param <I> the type of the saga's input
 * @param <R> the type of the step's result
 */
public final class CompensationTask<I, R> extends Task<I> {
  private final @Nullable R result;
  private final String original;

  CompensationTask(Held held, Values values, JavaType input, JavaType result) {
    super(held, values, input);
    this.result = values.read(held.value("result"), result, "result");
    this.original = held.text("original_idempotency_key");
  }

  /** Returns what the step returned; null if it is JSON's null. */
  public @Nullable R result() {
    return result;
  }

  /** Returns the idempotency key of the step that is undone. */
  public String originalIdempotencyKey() {
    return original;
  }
}
