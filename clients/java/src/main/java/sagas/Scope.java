package sagas;

import java.time.Duration;
import java.util.ArrayList;
import java.util.LinkedHashSet;
import java.util.List;
import java.util.Set;

/** A time in which requests are repeated. It ends when it is closed, or at its deadline. */
final class Scope implements AutoCloseable {
  private final Set<Runnable> endings = new LinkedHashSet<>();
  private final long deadline; // of System.nanoTime
  private final boolean isLimited;
  private final @Nullable Hook inParent;
  private boolean isClosed;

  Scope() {
    this(null, null);
  }

  private Scope(@Nullable Scope parent, @Nullable Duration limit) {
    long now = System.nanoTime();
    long left = limit == null ? Long.MAX_VALUE : Times.nanos(limit);
    if (parent != null) {
      left = Math.min(left, parent.left());
    }
    isLimited = left != Long.MAX_VALUE;
    deadline = now + (isLimited ? left : 0);
    inParent = parent == null ? null : parent.onEnd(this::close);
  }

  /** Returns a scope that ends with this one. */
  Scope child() {
    return new Scope(this, null);
  }

  /** Returns a scope that ends with this one, and after a time. */
  Scope child(Duration limit) {
    return new Scope(this, limit);
  }

  boolean isOver() {
    return isClosed() || isLimited && left() <= 0;
  }

  synchronized boolean isClosed() {
    return isClosed;
  }

  /** Returns the remaining nanoseconds. */
  long left() {
    return isLimited ? deadline - System.nanoTime() : Long.MAX_VALUE;
  }

  /** Has something called when the scope is closed, until the hook is removed. */
  Hook onEnd(Runnable ending) {
    Runnable own = () -> ending.run();
    boolean isLate;
    synchronized (this) {
      isLate = isClosed;
      if (!isLate) {
        endings.add(own);
      }
    }
    if (isLate) {
      own.run();
    }
    return () -> remove(own);
  }

  private synchronized void remove(Runnable ending) {
    endings.remove(ending);
  }

  /** Waits, and returns false if the scope ended first. */
  synchronized boolean sleep(long nanos) throws InterruptedException {
    long until = System.nanoTime() + nanos;
    while (!isClosed) {
      long left = Math.min(until - System.nanoTime(), left());
      if (left <= 0) {
        return left() > 0;
      }
      long millis = left / 1_000_000;
      wait(millis, (int) (left - millis * 1_000_000));
    }
    return false;
  }

  @Override
  public void close() {
    List<Runnable> called;
    synchronized (this) {
      if (isClosed) {
        return;
      }
      isClosed = true;
      called = new ArrayList<>(endings);
      endings.clear();
      notifyAll();
    }
    called.forEach(Runnable::run);
    if (inParent != null) {
      inParent.close();
    }
  }

  /** Removes what {@link #onEnd} added. */
  interface Hook extends AutoCloseable {
    @Override
    void close();
  }
}
