package sagas;

/**
 * An error of this package. Its kinds are {@link ProblemException}, {@link UnreachableException},
 * {@link WaitTimeoutException}, {@link CanceledException}, {@link CannotDecodeException}, {@link
 * MissingResultException} and {@link StepFailedException}.
 *
 * <p>The texts of these errors have no inputs, results and tokens.
 */
public abstract sealed class SagasException extends RuntimeException
    permits ProblemException,
        UnreachableException,
        WaitTimeoutException,
        CanceledException,
        CannotDecodeException,
        MissingResultException,
        StepFailedException {
  private static final long serialVersionUID = 1;

  SagasException(String message, @Nullable Throwable cause) {
    super(message, cause);
  }
}
