package sagas;

/** Decodes values of a service whose store has a codec. */
@FunctionalInterface
public interface Codec {
  /**
   * Returns the JSON, in UTF-8, of a value of which the store's codec made these bytes.
   *
   * @param data what is stored
   * @throws Exception if it cannot be decoded; {@link CannotDecodeException} follows
   */
  byte[] decode(byte[] data) throws Exception;
}
