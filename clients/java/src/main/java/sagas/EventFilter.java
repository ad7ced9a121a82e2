package sagas;

import java.util.StringJoiner;

/**
 * Selects events. {@link #all} selects all, from now on.
 *
 * @param key the key of their saga, or null
 * @param definition the name of their saga's definition, or null
 * @param after an {@link Event#id} after which the stream continues, or null: from now on
 */
public record EventFilter(
    @Nullable String key, @Nullable String definition, @Nullable String after) {

  /**
   * Checks the ID.
   *
   * @throws IllegalArgumentException if {@code after} is not the ID of an event
   */
  public EventFilter {
    if (after != null && !after.chars().allMatch(letter -> letter > ' ' && letter <= '~')) {
      throw new IllegalArgumentException("that is not the ID of an event");
    }
  }

  /** Returns a filter that selects all events, from now on. */
  public static EventFilter all() {
    return new EventFilter(null, null, null);
  }

  /** Returns this filter for a saga. */
  public EventFilter withKey(@Nullable String key) {
    return new EventFilter(key, definition, after);
  }

  /** Returns this filter for a definition. */
  public EventFilter withDefinition(@Nullable String definition) {
    return new EventFilter(key, definition, after);
  }

  /** Returns this filter for events after one. */
  public EventFilter withAfter(@Nullable String after) {
    return new EventFilter(key, definition, after);
  }

  String path() {
    StringJoiner query = new StringJoiner("&");
    Filter.add(query, "key", key);
    Filter.add(query, "definition", definition);
    return query.length() == 0 ? "/v1/events" : "/v1/events?" + query;
  }
}
