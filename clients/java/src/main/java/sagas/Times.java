package sagas;

import java.time.Duration;
import java.util.concurrent.ThreadLocalRandom;

/** Durations as numbers. */
final class Times {
  private Times() {}

  static long nanos(Duration duration) {
    try {
      return duration.toNanos();
    } catch (ArithmeticException tooLong) {
      return Long.MAX_VALUE;
    }
  }

  static double seconds(Duration duration) {
    return duration.getSeconds() + duration.getNano() / 1e9;
  }

  static Duration min(Duration first, Duration second) {
    return first.compareTo(second) < 0 ? first : second;
  }

  static Duration max(Duration first, Duration second) {
    return first.compareTo(second) < 0 ? second : first;
  }

  /** Returns a pause from half of its length to all of it. */
  static Duration jittered(Duration pause) {
    double part = 0.5 + ThreadLocalRandom.current().nextDouble() / 2;
    return Duration.ofNanos((long) (part * pause.toNanos()));
  }
}
