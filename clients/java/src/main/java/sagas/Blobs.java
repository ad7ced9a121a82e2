package sagas;

/** Reads large values of a service whose store has a blob store. */
@FunctionalInterface
public interface Blobs {
  /**
   * Returns a stored value.
   *
   * @param key the value's key in the blob store
   * @throws Exception if it cannot be read; {@link CannotDecodeException} follows
   */
  byte[] get(String key) throws Exception;
}
