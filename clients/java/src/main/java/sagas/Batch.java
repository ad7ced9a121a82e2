package sagas;

import com.fasterxml.jackson.databind.JsonNode;
import com.fasterxml.jackson.databind.node.ObjectNode;
import java.util.List;
import java.util.Map;

/** What a filter selects, before it is changed: {@link Client#batch} counts, {@link #apply} acts. */
public final class Batch {
  private final Client client;
  private final String path;
  private final ObjectNode body;
  private final JsonNode answer;

  Batch(Client client, String path, ObjectNode body) {
    this.client = client;
    this.path = path;
    this.body = body;
    this.answer = client.post(path, body);
  }

  /** Returns how many sagas the filter selects. */
  public long count() {
    return answer.path("count").asLong();
  }

  /** Returns the keys of the first 20 of them. */
  public List<String> keys() {
    return Values.list(answer.path("keys"), JsonNode::asText);
  }

  /** Returns labels and steps that do not exist, if the filter selects nothing. */
  public List<String> warnings() {
    return Values.list(answer.path("warnings"), JsonNode::asText);
  }

  /**
   * Acts on them: on the oldest 1,000, if there are more. Then make another batch of the same
   * filter.
   *
   * @throws ProblemException {@code CountChanged} if the filter now selects another number; then
   *     nothing was changed
   */
  public Result apply() {
    ObjectNode acting = body.deepCopy();
    acting.put("dry_run", false).put("count", count());
    JsonNode done = client.post(path, acting);
    Map<String, ProblemException> refused = new java.util.LinkedHashMap<>();
    for (JsonNode one : done.path("refused")) {
      refused.put(one.path("key").asText(), ProblemException.of(one.path("problem")));
    }
    return new Result(done.path("done").asLong(), refused, done.path("left").asLong());
  }

  /**
   * What became of a batch.
   *
   * @param done how many sagas were changed
   * @param refused why others were refused, by their keys
   * @param left how many are left for a further batch
   */
  public record Result(long done, Map<String, ProblemException> refused, long left) {}
}
