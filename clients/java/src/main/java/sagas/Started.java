package sagas;

/**
 * The answer to a start.
 *
 * @param key the saga's key
 * @param definition the name of its definition
 * @param version the version of the definition
 * @param isNew false if the key had this saga already, or if the request was repeated
 */
public record Started(String key, String definition, int version, boolean isNew) {}
