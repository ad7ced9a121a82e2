package sagas;

import java.time.Duration;
import java.util.Map;
import java.util.regex.Pattern;

/**
 * Options of {@link Client#start}. Begin with {@link #none}:
 *
 * <pre>{@code
 * StartOptions.none().withLabels(Map.of("customer", "7")).withDeadline(Duration.ofHours(1))
 * }</pre>
 *
 * @param labels labels by which the saga can be listed (default: none)
 * @param deadline after how long the saga is aborted if it has not ended, or null (default)
 * @param version the version of the definition, or null (default) for the newest of a new saga and
 *     any of an existing one
 * @param traceparent the W3C trace context that the saga is started in, or null (default); workers
 *     get it as {@link Task#traceparent}
 */
public record StartOptions(
    Map<String, String> labels,
    @Nullable Duration deadline,
    @Nullable Integer version,
    @Nullable String traceparent) {
  private static final Pattern TRACEPARENT =
      Pattern.compile("(?!ff)[0-9a-f]{2}-(?!0{32})[0-9a-f]{32}-(?!0{16})[0-9a-f]{16}-[0-9a-f]{2}");

  /**
   * Checks the trace context.
   *
   * @throws IllegalArgumentException if {@code traceparent} is not a W3C trace context
   */
  public StartOptions {
    labels = Map.copyOf(labels);
    if (traceparent != null && !TRACEPARENT.matcher(traceparent).matches()) {
      throw new IllegalArgumentException("the traceparent is not a W3C trace context");
    }
  }

  /** Returns the defaults. */
  public static StartOptions none() {
    return new StartOptions(Map.of(), null, null, null);
  }

  /** Returns these options with labels. */
  public StartOptions withLabels(Map<String, String> labels) {
    return new StartOptions(labels, deadline, version, traceparent);
  }

  /** Returns these options with a deadline. */
  public StartOptions withDeadline(@Nullable Duration deadline) {
    return new StartOptions(labels, deadline, version, traceparent);
  }

  /** Returns these options with a version. */
  public StartOptions withVersion(@Nullable Integer version) {
    return new StartOptions(labels, deadline, version, traceparent);
  }

  /** Returns these options with a trace context. */
  public StartOptions withTraceparent(@Nullable String traceparent) {
    return new StartOptions(labels, deadline, version, traceparent);
  }
}
