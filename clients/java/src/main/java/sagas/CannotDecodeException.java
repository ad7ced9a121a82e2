package sagas;

/**
 * A value does not fit the type that is asked for, or the {@link Codec} or the {@link Blobs} cannot
 * read it. The text names the place and the type, and not the value.
 */
public final class CannotDecodeException extends SagasException {
  private static final long serialVersionUID = 1;

  CannotDecodeException(String message) {
    super(message, null);
  }
}
