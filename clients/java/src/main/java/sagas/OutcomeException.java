package sagas;

/**
 * What the function of a step throws to say what happened: {@link Fail}, {@link Retry} or {@link
 * Unknown}. Its text is stored, and people see it, up to 4,000 characters.
 *
 * <p>Only the exception itself counts. As the cause of another one, for example of a {@link
 * java.util.concurrent.ExecutionException}, it means nothing: the outcome is unknown.
 */
public abstract sealed class OutcomeException extends RuntimeException
    permits Fail, Retry, Unknown {
  private static final long serialVersionUID = 1;

  OutcomeException(String message, @Nullable Throwable cause) {
    super(message, cause);
  }
}
