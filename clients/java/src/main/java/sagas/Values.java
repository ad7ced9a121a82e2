package sagas;

import com.fasterxml.jackson.core.JsonProcessingException;
import com.fasterxml.jackson.core.type.TypeReference;
import com.fasterxml.jackson.databind.DeserializationFeature;
import com.fasterxml.jackson.databind.JavaType;
import com.fasterxml.jackson.databind.JsonMappingException;
import com.fasterxml.jackson.databind.JsonNode;
import com.fasterxml.jackson.databind.MapperFeature;
import com.fasterxml.jackson.databind.ObjectMapper;
import com.fasterxml.jackson.databind.cfg.CoercionAction;
import com.fasterxml.jackson.databind.cfg.CoercionInputShape;
import com.fasterxml.jackson.databind.json.JsonMapper;
import com.fasterxml.jackson.databind.node.JsonNodeFactory;
import com.fasterxml.jackson.databind.node.NullNode;
import com.fasterxml.jackson.databind.node.ObjectNode;
import com.fasterxml.jackson.databind.type.LogicalType;
import java.io.IOException;
import java.nio.charset.StandardCharsets;
import java.time.Instant;
import java.time.format.DateTimeParseException;
import java.util.ArrayList;
import java.util.Base64;
import java.util.Collections;
import java.util.Iterator;
import java.util.LinkedHashMap;
import java.util.List;
import java.util.Map;
import java.util.function.Function;

/** Values as JSON: those of callers and functions by their mapper, all others as trees. */
final class Values {
  static final ObjectMapper PLAIN = strict();

  private static final int DEEPEST = 500;
  private static final String HALF = "half of a surrogate pair in a text";

  private final ObjectMapper mapper;
  private final @Nullable Codec codec;
  private final @Nullable Blobs blobs;

  Values(@Nullable ObjectMapper mapper, @Nullable Codec codec, @Nullable Blobs blobs) {
    this.mapper = mapper == null ? PLAIN : mapper;
    this.codec = codec;
    this.blobs = blobs;
  }

  /**
   * Returns a mapper that converts nothing silently: no text to a number, no fraction to an integer,
   * no null to 0. Decimals keep their digits, and properties that a type does not have are ignored.
   */
  static ObjectMapper strict() {
    JsonMapper.Builder builder =
        JsonMapper.builder()
            .disable(MapperFeature.ALLOW_COERCION_OF_SCALARS)
            .disable(DeserializationFeature.FAIL_ON_UNKNOWN_PROPERTIES)
            .disable(DeserializationFeature.ACCEPT_FLOAT_AS_INT)
            .enable(DeserializationFeature.FAIL_ON_NULL_FOR_PRIMITIVES)
            .enable(DeserializationFeature.FAIL_ON_NUMBERS_FOR_ENUMS)
            .enable(DeserializationFeature.USE_BIG_DECIMAL_FOR_FLOATS)
            .nodeFactory(JsonNodeFactory.withExactBigDecimals(true));
    builder.withCoercionConfig(
        LogicalType.Textual,
        config -> {
          config.setCoercion(CoercionInputShape.Integer, CoercionAction.Fail);
          config.setCoercion(CoercionInputShape.Float, CoercionAction.Fail);
          config.setCoercion(CoercionInputShape.Boolean, CoercionAction.Fail);
        });
    return builder.build();
  }

  JavaType typeOf(Class<?> type) {
    return mapper.constructType(type);
  }

  JavaType typeOf(TypeReference<?> type) {
    return mapper.constructType(type);
  }

  /** Returns a value as JSON. The error has the type and the path, and not the value. */
  JsonNode write(@Nullable Object value, String name) {
    if (value == null) {
      return NullNode.getInstance();
    }
    JsonNode node;
    try {
      node = value instanceof JsonNode tree ? tree : mapper.valueToTree(value);
    } catch (RuntimeException | StackOverflowError error) {
      Throwable cause = error.getCause() instanceof JsonProcessingException json ? json : error;
      throw new IllegalArgumentException(
          "the %s of %s cannot be written as JSON%s (%s)"
              .formatted(
                  name,
                  value.getClass().getName(),
                  pathOf(cause),
                  cause.getClass().getSimpleName()));
    }
    if (node == null || node.isMissingNode()) {
      return NullNode.getInstance();
    }
    String fault = faultOf(node, 0);
    if (fault != null) {
      throw new IllegalArgumentException("the %s has %s".formatted(name, fault));
    }
    return node;
  }

  /** Returns what JSON cannot hold, or null. */
  private static @Nullable String faultOf(JsonNode node, int depth) {
    if (depth > DEEPEST) {
      return "more than " + DEEPEST + " levels";
    }
    if ((node.isDouble() || node.isFloat()) && !Double.isFinite(node.doubleValue())) {
      return "a number that is not finite";
    }
    if (node.isTextual() && !isText(node.textValue())) {
      return HALF;
    }
    for (Iterator<String> names = node.fieldNames(); names.hasNext(); ) {
      if (!isText(names.next())) {
        return HALF;
      }
    }
    for (JsonNode item : node) {
      String fault = faultOf(item, depth + 1);
      if (fault != null) {
        return fault;
      }
    }
    return null;
  }

  static boolean isText(String text) {
    return StandardCharsets.UTF_8.newEncoder().canEncode(text);
  }

  /** Returns a JSON value as a type. */
  @SuppressWarnings("unchecked")
  <T> @Nullable T read(JsonNode node, JavaType type, String name) {
    if (type.isTypeOrSubTypeOf(JsonNode.class) && type.getRawClass().isInstance(node)) {
      return (T) node;
    }
    try {
      return mapper.readValue(mapper.treeAsTokens(node), type);
    } catch (IOException | RuntimeException error) {
      throw new CannotDecodeException(
          "the %s does not fit %s%s (%s)"
              .formatted(
                  name, type.toCanonical(), pathOf(error), error.getClass().getSimpleName()));
    }
  }

  /** Returns where in a value an error is, with the names of fields only. */
  private static String pathOf(Throwable error) {
    if (!(error instanceof JsonMappingException mapping) || mapping.getPath().isEmpty()) {
      return "";
    }
    StringBuilder path = new StringBuilder();
    for (JsonMappingException.Reference part : mapping.getPath()) {
      if (part.getFieldName() == null) {
        path.append('[').append(part.getIndex()).append(']');
      } else {
        path.append(path.length() == 0 ? "" : ".").append(part.getFieldName());
      }
    }
    return " at " + path;
  }

  /** Returns the value of what is stored. */
  JsonNode decoded(JsonNode stored, String name) {
    JsonNode node = stored;
    if (blobs != null && node.size() == 3 && node.path("$blob").isTextual()) {
      try {
        node = tree(blobs.get(node.path("$blob").textValue()));
      } catch (Exception error) {
        throw failed("the blob store", name, error);
      }
      if (node == null) {
        throw new CannotDecodeException("the blob store returned no JSON: the " + name);
      }
      if (node.size() == 1 && node.has("$plain")) {
        return node.get("$plain");
      }
    }
    if (codec == null || node.size() != 1 || !node.path("$codec").isTextual()) {
      return node;
    }
    try {
      node = tree(codec.decode(Base64.getDecoder().decode(node.path("$codec").textValue())));
    } catch (Exception error) {
      throw failed("the codec", name, error);
    }
    if (node == null) {
      throw new CannotDecodeException("the codec returned no JSON: the " + name);
    }
    return node;
  }

  private static CannotDecodeException failed(String part, String name, Exception error) {
    return new CannotDecodeException(
        "%s failed (%s): the %s".formatted(part, error.getClass().getName(), name));
  }

  /** Returns a JSON document, or null if the bytes are none. */
  static @Nullable JsonNode tree(byte[] body) {
    try {
      JsonNode node = PLAIN.readTree(body);
      return node == null || node.isMissingNode() ? null : node;
    } catch (IOException | StackOverflowError error) {
      return null;
    }
  }

  /** Returns what a failed optional step raised, or null if that is a result. */
  static @Nullable String failureOf(JsonNode result) {
    return result.size() == 1 ? text(result, "$failed") : null;
  }

  static byte[] bytes(JsonNode node) {
    try {
      return PLAIN.writeValueAsBytes(node);
    } catch (JsonProcessingException | StackOverflowError error) {
      throw new IllegalArgumentException("a text cannot be written as JSON: " + error.getClass());
    }
  }

  static ObjectNode object() {
    return PLAIN.createObjectNode();
  }

  static @Nullable String text(JsonNode object, String name) {
    return object.path(name).textValue();
  }

  static @Nullable Long number(JsonNode object, String name) {
    return object.path(name).isIntegralNumber() ? object.path(name).longValue() : null;
  }

  static @Nullable Instant instant(JsonNode object, String name) {
    String text = text(object, name);
    try {
      return text == null ? null : Instant.parse(text);
    } catch (DateTimeParseException error) {
      return null;
    }
  }

  static <V> Map<String, V> map(JsonNode object, Function<JsonNode, V> value) {
    Map<String, V> entries = new LinkedHashMap<>();
    object.fields().forEachRemaining(one -> entries.put(one.getKey(), value.apply(one.getValue())));
    return Collections.unmodifiableMap(entries);
  }

  static <V> List<V> list(JsonNode array, Function<JsonNode, V> value) {
    List<V> items = new ArrayList<>();
    array.forEach(item -> items.add(value.apply(item)));
    return Collections.unmodifiableList(items);
  }
}
