package sagas;

import com.fasterxml.jackson.core.type.TypeReference;
import com.fasterxml.jackson.databind.JavaType;
import com.fasterxml.jackson.databind.JsonNode;
import java.time.Instant;
import java.util.LinkedHashMap;
import java.util.List;
import java.util.Map;

/** A saga as the service sees it. It never changes: {@link Client#get} returns a new one. */
public final class Saga {
  private final JsonNode saga;
  private final Values values;
  private final JsonNode input;
  private final Map<String, JsonNode> results;

  Saga(JsonNode saga, Values values) {
    this.saga = saga;
    this.values = values;
    this.input = values.decoded(saga.path("input"), "input");
    Map<String, JsonNode> decoded = new LinkedHashMap<>();
    saga.path("results")
        .fields()
        .forEachRemaining(
            one ->
                decoded.put(
                    one.getKey(),
                    values.decoded(one.getValue(), "result of '" + one.getKey() + "'")));
    this.results = java.util.Collections.unmodifiableMap(decoded);
  }

  /** Returns its key. */
  public String key() {
    return saga.path("key").asText();
  }

  /** Returns the name of its definition. */
  public String definition() {
    return saga.path("definition").asText();
  }

  /** Returns the version of its definition; null if the service does not report it. */
  public @Nullable Integer version() {
    return saga.path("version").isInt() ? saga.path("version").asInt() : null;
  }

  /** Returns how far it is. */
  public Phase phase() {
    return Phase.of(saga.path("phase").asText());
  }

  /** Returns whether it is not open. */
  public boolean isOver() {
    return saga.path("over").asBoolean();
  }

  /** Returns whether it was aborted. */
  public boolean isAborted() {
    return saga.path("aborted").asBoolean();
  }

  /** Returns when it was started. */
  public @Nullable Instant started() {
    return Values.instant(saga, "started_at");
  }

  /** Returns when it ended or got stuck, or null. */
  public @Nullable Instant ended() {
    return Values.instant(saga, "ended_at");
  }

  /** Returns when it is aborted if it has not ended, or null. */
  public @Nullable Instant deadline() {
    return Values.instant(saga, "deadline_at");
  }

  /** Returns its labels. */
  public Map<String, String> labels() {
    return Values.map(saga.path("labels"), JsonNode::asText);
  }

  /** Returns the note of the operator who resolved it, or null. */
  public @Nullable String note() {
    return Values.text(saga, "note");
  }

  /** Returns its input as JSON. */
  public JsonNode input() {
    return input;
  }

  /**
   * Returns its input.
   *
   * @param type what Jackson makes of it
   * @return the input; null if it is JSON's null
   * @throws CannotDecodeException if it does not fit the type
   */
  public <T> @Nullable T input(Class<T> type) {
    return values.read(input, values.typeOf(type), "input");
  }

  /** Returns the state of each step, for example {@code committed} or {@code undone}. */
  public Map<String, String> states() {
    return Values.map(saga.path("states"), JsonNode::asText);
  }

  /**
   * Returns the reports, {@code complete} or {@code fail}, that are stored of steps which have not
   * begun.
   */
  public Map<String, String> early() {
    return Values.map(saga.path("early"), JsonNode::asText);
  }

  /** Returns the results, as JSON, of the steps that are in effect. */
  public Map<String, JsonNode> results() {
    return results;
  }

  /**
   * Returns the result of a step.
   *
   * @param step the step's name
   * @param type what Jackson makes of it
   * @return the result; null if it is JSON's null
   * @throws MissingResultException if the step has no result that is in effect
   * @throws CannotDecodeException if it does not fit the type
   */
  public <T> @Nullable T resultOf(String step, Class<T> type) {
    return resultOf(step, values.typeOf(type));
  }

  /** Returns the result of a step as a generic type; see {@link #resultOf(String, Class)}. */
  public <T> @Nullable T resultOf(String step, TypeReference<T> type) {
    return resultOf(step, values.typeOf(type));
  }

  private <T> @Nullable T resultOf(String step, JavaType type) {
    JsonNode result = results.get(step);
    if (result == null) {
      throw new MissingResultException("the step '" + step + "' has no result that is in effect");
    }
    return values.read(result, type, "result of '" + step + "'");
  }

  /** Returns what failed steps raised last. */
  public Map<String, String> errors() {
    return Values.map(saga.path("errors"), JsonNode::asText);
  }

  /** Returns the failed steps without which the saga continued. */
  public List<String> optionalFailures() {
    return Values.list(saga.path("optional_failures"), JsonNode::asText);
  }

  /** Returns the last plan, or null if nothing failed. */
  public @Nullable Plan plan() {
    JsonNode plan = saga.path("plan");
    return plan.isObject() ? Plan.of(plan) : null;
  }

  /** Returns the attempts that wait. */
  public List<Waiting> waits() {
    return Values.list(saga.path("waits"), Waiting::of);
  }

  /** Returns what running functions reported last. */
  public List<Progress> progress() {
    return Values.list(saga.path("progress"), Progress::of);
  }

  /** Returns the key, the phase and the states of the steps. */
  @Override
  public String toString() {
    return "Saga[key=" + key() + ", phase=" + phase().text() + ", states=" + states() + "]";
  }

  /**
   * How a saga ends.
   *
   * @param cost its cost, or null if no plan is feasible
   * @param pivot the pivot of the saga, or null. With a pivot, the costs have no meaning of their
   *     own.
   * @param blockingSteps the steps that make every plan infeasible
   * @param steps what it decides about each step
   */
  public record Plan(
      @Nullable Long cost,
      @Nullable String pivot,
      List<String> blockingSteps,
      List<PlannedStep> steps) {
    static Plan of(JsonNode plan) {
      return new Plan(
          Values.number(plan, "cost"),
          Values.text(plan, "pivot"),
          Values.list(plan.path("blocking_steps"), JsonNode::asText),
          Values.list(plan.path("steps"), PlannedStep::of));
    }
  }

  /**
   * What a plan decides about a step. A cost of null means never.
   *
   * @param step the step's name
   * @param found the step's state when the plan was made
   * @param costToKeep what it costs to keep the effect
   * @param costToDrop what it costs to drop the effect
   * @param decision what is done
   */
  public record PlannedStep(
      String step,
      String found,
      @Nullable Long costToKeep,
      @Nullable Long costToDrop,
      String decision) {
    static PlannedStep of(JsonNode step) {
      return new PlannedStep(
          step.path("step").asText(),
          step.path("found").asText(),
          Values.number(step, "cost_to_keep"),
          Values.number(step, "cost_to_drop"),
          step.path("decision").asText());
    }
  }

  /**
   * An attempt that waits.
   *
   * @param step the step's name
   * @param isCompensation whether it is the compensation
   * @param attempt its number, from 1
   * @param why what it waits for, for example {@code worker} or {@code approval}
   * @param since since when
   * @param until until when, or null if there is no limit
   * @param detail what was raised last, or the name of the worker; may be null
   * @param needsOperator whether a person must report something
   */
  public record Waiting(
      String step,
      boolean isCompensation,
      int attempt,
      String why,
      @Nullable Instant since,
      @Nullable Instant until,
      @Nullable String detail,
      boolean needsOperator) {
    static Waiting of(JsonNode wait) {
      return new Waiting(
          wait.path("step").asText(),
          wait.path("undo").asBoolean(),
          wait.path("attempt").asInt(),
          wait.path("why").asText(),
          Values.instant(wait, "since_at"),
          Values.instant(wait, "until_at"),
          Values.text(wait, "detail"),
          wait.path("person").asBoolean());
    }
  }

  /**
   * How far a running function is.
   *
   * @param step the step's name
   * @param fraction from 0 to 1
   * @param detail a text for people, or null
   */
  public record Progress(String step, double fraction, @Nullable String detail) {
    static Progress of(JsonNode progress) {
      return new Progress(
          progress.path("step").asText(),
          progress.path("fraction").asDouble(),
          Values.text(progress, "detail"));
    }
  }
}
