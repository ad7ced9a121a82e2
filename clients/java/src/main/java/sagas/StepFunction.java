package sagas;

/**
 * The function that performs a step.
 *
 * @param <I> the type of the saga's input
 */
@FunctionalInterface
public interface StepFunction<I> {
  /**
   * Performs the step, and returns its result: what Jackson writes, or null.
   *
   * @throws Fail if there was no effect, and no other attempt is to follow
   * @throws Retry if there was no effect, and another attempt may follow
   * @throws Exception anything else means that the outcome is unknown: the attempt repeats after its
   *     back-off, with the same idempotency key. After a {@link LinkageError} or a {@link
   *     MissingResultException}, which a repetition would throw again, it waits for an operator.
   */
  @Nullable Object perform(Task<I> task) throws Exception;
}
