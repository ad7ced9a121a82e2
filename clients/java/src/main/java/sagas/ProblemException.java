package sagas;

import com.fasterxml.jackson.databind.JsonNode;
import java.nio.charset.StandardCharsets;
import java.time.Duration;
import java.util.Arrays;

/**
 * The service refuses a request. It is a problem document of RFC 9457.
 *
 * <p>Decide by {@link #name}, for example {@code NoSuchSaga}, or by {@link #kind}, which stands for
 * all problems with the same remedy. The reference of HTTP errors has all names.
 */
public final class ProblemException extends SagasException {
  /** No saga has the key. */
  public static final String NO_SUCH_SAGA = "NoSuchSaga";

  /** The service has no definition with this name. */
  public static final String NO_SUCH_DEFINITION = "NoSuchDefinition";

  /** The key has another definition, version or input. */
  public static final String KEY_CONFLICT = "KeyConflict";

  /** The key is not 1 to 512 printable characters. */
  public static final String INVALID_KEY = "InvalidKey";

  /** The input does not fit the definition. */
  public static final String INVALID_INPUT = "InvalidInput";

  /** The step waits for no report. */
  public static final String STEP_NOT_WAITING = "StepNotWaiting";

  /** Another outcome was reported first. */
  public static final String CONFLICTING_REPORT = "ConflictingReport";

  /** The saga is over. */
  public static final String SAGA_OVER = "SagaOver";

  /** The saga undoes a child, so it is not aborted. */
  public static final String NOT_ABORTABLE = "NotAbortable";

  /** The saga is open, has completed, or is a child, so it is not restarted. */
  public static final String NOT_RESTARTABLE = "NotRestartable";

  /** A filter selects another number of sagas than the one that was counted. */
  public static final String COUNT_CHANGED = "CountChanged";

  /** The token is missing, expired or none of the service. */
  public static final String UNAUTHORIZED = "Unauthorized";

  /** The token does not allow the request. */
  public static final String FORBIDDEN = "Forbidden";

  static final String INVALID_LEASE = "InvalidLease";

  /** The problems with the same remedy. */
  public enum Kind {
    /** 404: check the key or the name. */
    NOT_FOUND,
    /** 409: the request contradicts what is stored. Look at the saga. */
    CONFLICT,
    /** 401 and 403: get another token. */
    DENIED,
    /** Another status from 400 to 499: change the request. */
    INVALID,
    /** 408, 429, 5xx and others: repeat the same request. */
    UNAVAILABLE
  }

  private static final long serialVersionUID = 1;
  private static final String PREFIX = "urn:sagas:problem:";
  private static final int LONGEST = 500;

  /** The HTTP status. */
  private final int status;

  /** The name of the problem, or an empty text. */
  private final String name;

  /** What kind of problem it is. */
  private final String title;

  /** What happened, and what to do. */
  private final String detail;

  /** The parameter or the place in the body, or null. */
  private final @Nullable String field;

  private final transient Duration pause;

  private ProblemException(
      int status,
      String name,
      String title,
      String detail,
      @Nullable String field,
      Duration pause) {
    super(status + (name.isEmpty() ? "" : " " + name) + ": " + detail, null);
    this.status = status;
    this.name = name;
    this.title = title;
    this.detail = detail;
    this.field = field;
    this.pause = pause;
  }

  /** Reads an answer that is not a success. */
  static ProblemException of(int status, byte[] body, Duration pause) {
    JsonNode document = Values.tree(body);
    if (document != null && document.path("type").asText().startsWith(PREFIX)) {
      return of(status, document, pause);
    }
    byte[] start = Arrays.copyOf(body, Math.min(body.length, LONGEST));
    return new ProblemException(
        status, "", "", new String(start, StandardCharsets.UTF_8), null, pause);
  }

  /** Reads a problem that is a part of an answer. */
  static ProblemException of(JsonNode document) {
    return of(document.path("status").asInt(), document, Duration.ZERO);
  }

  private static ProblemException of(int status, JsonNode document, Duration pause) {
    String name = document.path("type").asText();
    return new ProblemException(
        status,
        name.startsWith(PREFIX) ? name.substring(PREFIX.length()) : "",
        document.path("title").asText(),
        document.path("detail").asText(),
        Values.text(document, "field"),
        pause);
  }

  /** Returns the HTTP status. */
  public int status() {
    return status;
  }

  /**
   * Returns the name of the problem, for example {@code KeyConflict}. It is empty if the answer
   * comes from something other than the service, such as a proxy.
   */
  public String name() {
    return name;
  }

  /** Returns what kind of problem it is, for people. */
  public String title() {
    return title;
  }

  /** Returns what happened and what to do, for people. */
  public String detail() {
    return detail;
  }

  /** Returns the parameter or the place in the body, or null if there is none. */
  public @Nullable String field() {
    return field;
  }

  /** Returns which remedy the problem has. */
  public Kind kind() {
    if (isRepeated()) {
      return Kind.UNAVAILABLE;
    }
    return switch (status) {
      case 404 -> Kind.NOT_FOUND;
      case 409 -> Kind.CONFLICT;
      case 401, 403 -> Kind.DENIED;
      default -> status >= 400 && status < 500 ? Kind.INVALID : Kind.UNAVAILABLE;
    };
  }

  /** Says whether the same request is to be repeated. */
  boolean isRepeated() {
    return switch (status) {
      case 408, 429, 500, 502, 503, 504 -> true;
      default -> false;
    };
  }

  /** Says whether the worker is refused, rather than its report of one task. */
  boolean refusesWorker() {
    return (status == 401 || status == 403) && !name.equals(INVALID_LEASE);
  }

  /** Returns for how long the service asks to wait before the next attempt. */
  Duration pause() {
    return pause;
  }
}
