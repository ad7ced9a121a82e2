package sagas;

/**
 * No service answered in time (default: one minute, see {@link Client.Builder#timeout}). The request
 * may have been carried out, so repeat the same call. The cause is what the last attempt failed
 * with.
 */
public final class UnreachableException extends SagasException {
  private static final long serialVersionUID = 1;

  /** The service that was asked last. */
  private final String url;

  UnreachableException(String url, Throwable last) {
    super(url + " did not answer: " + Connection.textOf(last) + "; repeat the call", last);
    this.url = url;
  }

  /** Returns the address of the service that was asked last, without a user and a password. */
  public String url() {
    return url;
  }
}
