package sagas;

import com.fasterxml.jackson.databind.JsonNode;
import com.fasterxml.jackson.databind.node.ObjectNode;

/** What became of a task. */
sealed interface Report {
  /** The longest text of an error that is stored, in characters. */
  int LONGEST_TEXT = 4000;

  /** The effect happened. */
  record Succeeded(JsonNode result, boolean isReplaced) implements Report {}

  /** There was no effect. */
  record Failed(String error, boolean isFinal) implements Report {}

  /** The outcome is unknown. After a bug of the program, the attempt waits for an operator. */
  record Unclear(String error, boolean isBug) implements Report {}

  /** A report and the task that it is of. */
  record Of(Held held, Report report) {
    Of with(Report other) {
      return new Of(held, other);
    }

    /** Returns about how many bytes it has. */
    int size() {
      if (report instanceof Succeeded succeeded) {
        return 400 + size(succeeded.result());
      }
      return 400 + 2 * LONGEST_TEXT;
    }

    private static int size(JsonNode node) {
      if (node.isTextual()) {
        return node.textValue().length() + 3;
      }
      int size = 8;
      for (JsonNode item : node) {
        size += 12 + size(item);
      }
      return size;
    }

    /** Returns the body of the report alone; together with others it also has its ID and outcome. */
    ObjectNode json(boolean isAlone) {
      ObjectNode body = Values.object();
      if (!isAlone) {
        body.put("attempt_id", held.attemptId()).put("outcome", report.outcome());
      }
      body.put("lease", held.text("lease"));
      if (report instanceof Succeeded succeeded) {
        body.set("result", succeeded.result());
      } else if (report instanceof Failed failed) {
        body.put("error", failed.error());
        if (failed.isFinal()) {
          body.put("final", true);
        }
      } else if (report instanceof Unclear unclear) {
        body.put("error", unclear.error());
        if (unclear.isBug()) {
          body.put("program_error", true);
        }
      }
      return body;
    }
  }

  /** Returns the word that the service has for it. */
  default String outcome() {
    if (this instanceof Succeeded) {
      return "complete";
    }
    return this instanceof Failed ? "fail" : "unknown";
  }

  /** Says what a function threw. */
  static Report of(Throwable thrown) {
    String text = thrown.getMessage();
    if (!(thrown instanceof OutcomeException)) {
      text = text == null ? thrown.getClass().getName() : thrown.getClass().getName() + ": " + text;
    }
    text = cut(text == null ? thrown.getClass().getSimpleName() : text, LONGEST_TEXT);
    if (thrown instanceof Fail || thrown instanceof Retry) {
      return new Failed(text, thrown instanceof Fail);
    }
    boolean isBug = thrown instanceof LinkageError || thrown instanceof MissingResultException;
    return new Unclear(isBug ? cut(text + locationOf(thrown), LONGEST_TEXT) : text, isBug);
  }

  /** Returns the file and the line that threw an error, in brackets; nothing if it has none. */
  private static String locationOf(Throwable thrown) {
    for (StackTraceElement element : thrown.getStackTrace()) {
      if (!element.getClassName().startsWith("sagas.")) {
        return " (" + element + ")";
      }
    }
    return "";
  }

  /** Says that the effect happened. A result that JSON cannot hold must not hide that. */
  static Report of(@Nullable Object result, Values values) {
    try {
      return new Succeeded(values.write(result, "result"), false);
    } catch (IllegalArgumentException error) {
      return unstorable(error.getMessage());
    }
  }

  /** Says that the effect happened, and why its result is not stored. */
  static Report unstorable(String reason) {
    return new Succeeded(Values.object().put("unstorable", cut(reason, LONGEST_TEXT)), true);
  }

  /** Returns a text of at most so many characters, without halves of surrogate pairs. */
  static String cut(String text, int longest) {
    StringBuilder kept = new StringBuilder();
    text.codePoints()
        .limit(longest)
        .map(letter -> letter >= 0xD800 && letter <= 0xDFFF ? 0xFFFD : letter)
        .forEach(kept::appendCodePoint);
    return kept.toString();
  }
}
