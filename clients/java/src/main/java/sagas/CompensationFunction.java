package sagas;

/**
 * The function that undoes a step.
 *
 * @param <I> the type of the saga's input
 * @param <R> the type of the step's result
 */
@FunctionalInterface
public interface CompensationFunction<I, R> {
  /**
   * Undoes the step. If it returns, the effect is undone. What it throws means the same as for {@link
   * StepFunction#perform}.
   */
  void undo(CompensationTask<I, R> task) throws Exception;
}
