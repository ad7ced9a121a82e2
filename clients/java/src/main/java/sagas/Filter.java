package sagas;

import java.net.URLEncoder;
import java.nio.charset.StandardCharsets;
import java.time.Instant;
import java.util.Map;
import java.util.StringJoiner;

/**
 * Selects sagas. {@link #all} selects all; each further condition selects among them.
 *
 * @param phase their phase, or null
 * @param definition the name of their definition, or null
 * @param search what their key contains, or null
 * @param labels labels that they have, all of them
 * @param startedAfter they were started after this, or null
 * @param startedBefore they were started before this, or null
 * @param error what one of their attempts raised contains this, or null
 * @param pageSize how many sagas one request asks for, from 1 to 1,000 (default: 100)
 */
public record Filter(
    @Nullable Phase phase,
    @Nullable String definition,
    @Nullable String search,
    Map<String, String> labels,
    @Nullable Instant startedAfter,
    @Nullable Instant startedBefore,
    @Nullable String error,
    int pageSize) {

  /**
   * Checks the page size.
   *
   * @throws IllegalArgumentException if it is not from 1 to 1,000
   */
  public Filter {
    labels = Map.copyOf(labels);
    if (pageSize < 1 || pageSize > 1000) {
      throw new IllegalArgumentException("a page has 1 to 1,000 sagas, not " + pageSize);
    }
  }

  /** Returns a filter that selects all sagas. */
  public static Filter all() {
    return new Filter(null, null, null, Map.of(), null, null, null, 100);
  }

  /** Returns this filter for a phase. */
  public Filter withPhase(@Nullable Phase phase) {
    return new Filter(
        phase, definition, search, labels, startedAfter, startedBefore, error, pageSize);
  }

  /** Returns this filter for a definition. */
  public Filter withDefinition(@Nullable String definition) {
    return new Filter(
        phase, definition, search, labels, startedAfter, startedBefore, error, pageSize);
  }

  /** Returns this filter for keys that contain a text. */
  public Filter withSearch(@Nullable String search) {
    return new Filter(
        phase, definition, search, labels, startedAfter, startedBefore, error, pageSize);
  }

  /** Returns this filter for labels. */
  public Filter withLabels(Map<String, String> labels) {
    return new Filter(
        phase, definition, search, labels, startedAfter, startedBefore, error, pageSize);
  }

  /** Returns this filter for sagas that were started in a time; either end may be null. */
  public Filter withStarted(@Nullable Instant after, @Nullable Instant before) {
    return new Filter(phase, definition, search, labels, after, before, error, pageSize);
  }

  /** Returns this filter for sagas of which an attempt raised a text that contains this one. */
  public Filter withError(@Nullable String error) {
    return new Filter(
        phase, definition, search, labels, startedAfter, startedBefore, error, pageSize);
  }

  /** Returns this filter with another number of sagas for each request. */
  public Filter withPageSize(int pageSize) {
    return new Filter(
        phase, definition, search, labels, startedAfter, startedBefore, error, pageSize);
  }

  String query(@Nullable String after) {
    StringJoiner query = new StringJoiner("&");
    add(query, "phase", phase == null ? null : phase.text());
    add(query, "definition", definition);
    add(query, "search", search);
    labels.forEach((name, value) -> add(query, "label", name + "=" + value));
    add(query, "started_after", startedAfter);
    add(query, "started_before", startedBefore);
    add(query, "error", error);
    add(query, "limit", pageSize);
    add(query, "after", after);
    return query.toString();
  }

  static void add(StringJoiner query, String name, @Nullable Object value) {
    if (value != null) {
      query.add(name + "=" + URLEncoder.encode(value.toString(), StandardCharsets.UTF_8));
    }
  }
}
