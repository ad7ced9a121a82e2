package sagas;

import java.util.StringJoiner;

/**
 * Selects decisions. {@link #all} selects all; each further condition selects among them.
 *
 * @param key the key of the saga that they are on, or null
 * @param definition the name of its definition, or null
 * @param decision their kind, for example {@code retry}, or null
 * @param pageSize how many decisions one request asks for, from 1 to 1,000 (default: 100)
 */
public record DecisionFilter(
    @Nullable String key, @Nullable String definition, @Nullable String decision, int pageSize) {

  /**
   * Checks the page size.
   *
   * @throws IllegalArgumentException if it is not from 1 to 1,000
   */
  public DecisionFilter {
    if (pageSize < 1 || pageSize > 1000) {
      throw new IllegalArgumentException("a page has 1 to 1,000 decisions, not " + pageSize);
    }
  }

  /** Returns a filter that selects all decisions. */
  public static DecisionFilter all() {
    return new DecisionFilter(null, null, null, 100);
  }

  /** Returns this filter for decisions on the saga with a key. */
  public DecisionFilter withKey(@Nullable String key) {
    return new DecisionFilter(key, definition, decision, pageSize);
  }

  /** Returns this filter for decisions on sagas of a definition. */
  public DecisionFilter withDefinition(@Nullable String definition) {
    return new DecisionFilter(key, definition, decision, pageSize);
  }

  /** Returns this filter for decisions of a kind. */
  public DecisionFilter withDecision(@Nullable String decision) {
    return new DecisionFilter(key, definition, decision, pageSize);
  }

  /** Returns this filter with another number of decisions for each request. */
  public DecisionFilter withPageSize(int pageSize) {
    return new DecisionFilter(key, definition, decision, pageSize);
  }

  String query(@Nullable String after) {
    StringJoiner query = new StringJoiner("&");
    Filter.add(query, "key", key);
    Filter.add(query, "definition", definition);
    Filter.add(query, "decision", decision);
    Filter.add(query, "limit", pageSize);
    Filter.add(query, "after", after);
    return query.toString();
  }
}
