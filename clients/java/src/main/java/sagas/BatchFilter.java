package sagas;

import com.fasterxml.jackson.databind.node.ObjectNode;
import java.util.Map;

/**
 * Selects the sagas that a {@link Batch} changes. {@link #all} selects all to which its action
 * applies.
 *
 * @param kind what requires an operator, for example {@code stuck}, {@code unknown} or {@code
 *     approval}, or null. Every action except an abort requires it.
 * @param definition the name of their definition, or null
 * @param step the step that waits; a retry, a completion and a failure require it, and others have
 *     null. Of a step with items, all items are meant.
 * @param isCompensation whether the compensation of the step is meant
 * @param search what their key contains, or null
 * @param labels labels that they have, all of them
 * @param error what one of their attempts raised contains this, or null
 */
public record BatchFilter(
    @Nullable String kind,
    @Nullable String definition,
    @Nullable String step,
    boolean isCompensation,
    @Nullable String search,
    Map<String, String> labels,
    @Nullable String error) {

  /** Copies the labels. */
  public BatchFilter {
    labels = Map.copyOf(labels);
  }

  /** Returns a filter that selects all sagas to which the action applies. */
  public static BatchFilter all() {
    return new BatchFilter(null, null, null, false, null, Map.of(), null);
  }

  /** Returns this filter for a kind of what requires an operator. */
  public BatchFilter withKind(@Nullable String kind) {
    return new BatchFilter(kind, definition, step, isCompensation, search, labels, error);
  }

  /** Returns this filter for a definition. */
  public BatchFilter withDefinition(@Nullable String definition) {
    return new BatchFilter(kind, definition, step, isCompensation, search, labels, error);
  }

  /** Returns this filter for a step. */
  public BatchFilter withStep(@Nullable String step) {
    return new BatchFilter(kind, definition, step, false, search, labels, error);
  }

  /** Returns this filter for the compensation of a step. */
  public BatchFilter withCompensation(@Nullable String step) {
    return new BatchFilter(kind, definition, step, true, search, labels, error);
  }

  /** Returns this filter for keys that contain a text. */
  public BatchFilter withSearch(@Nullable String search) {
    return new BatchFilter(kind, definition, step, isCompensation, search, labels, error);
  }

  /** Returns this filter for labels. */
  public BatchFilter withLabels(Map<String, String> labels) {
    return new BatchFilter(kind, definition, step, isCompensation, search, labels, error);
  }

  /** Returns this filter for sagas of which an attempt raised a text that contains this one. */
  public BatchFilter withError(@Nullable String error) {
    return new BatchFilter(kind, definition, step, isCompensation, search, labels, error);
  }

  ObjectNode json() {
    ObjectNode filter = Values.object();
    put(filter, "kind", kind);
    put(filter, "definition", definition);
    put(filter, "step", step);
    if (isCompensation) {
      filter.put("undo", true);
    }
    put(filter, "search", search);
    put(filter, "error", error);
    if (!labels.isEmpty()) {
      labels.forEach(filter.putObject("labels")::put);
    }
    return filter;
  }

  private static void put(ObjectNode filter, String name, @Nullable String value) {
    if (value != null) {
      filter.put(name, value);
    }
  }
}
