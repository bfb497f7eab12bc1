"""What a bridge counts and measures, as Prometheus reads it."""
import json
from collections.abc import Callable
from pathlib import Path

from prometheus_client import CollectorRegistry, Counter, Gauge, Histogram, generate_latest

# The upper bounds of the histogram's buckets, in seconds.
BOUNDS = (0.001, 0.0025, 0.005, 0.01, 0.025, 0.05, 0.1, 0.25, 0.5, 1.0, 2.5, 5.0, 10.0)
# Each metric with its type, what it tells, and its labels.
METRICS: dict[str, tuple[str, str, list[str]]] = json.loads(Path(__file__).with_name("metrics.json").read_text())


class Metrics:
    """The counters, the histogram and the gauges of one bridge. A name that METRICS does not have raises KeyError."""

    def __init__(self) -> None:
        self._registry = registry = CollectorRegistry()
        self._counters = {name: Counter(name, told, labels, registry=registry)
                          for name, (kind, told, labels) in METRICS.items() if kind == "counter"}
        self._histograms = {name: Histogram(name, told, labels, registry=registry, buckets=BOUNDS)
                            for name, (kind, told, labels) in METRICS.items() if kind == "histogram"}

    def count(self, name: str, amount: float = 1, **labels: str) -> None:
        """Adds to a counter, under labels."""
        counter = self._counters[name]
        (counter.labels(**labels) if labels else counter).inc(amount)

    def observe(self, name: str, seconds: float) -> None:
        """Adds a duration to a histogram."""
        self._histograms[name].observe(seconds)

    def gauge(self, name: str, read: Callable[[], float]) -> None:
        """Says how a gauge is read, whenever the text is asked for."""
        Gauge(name, METRICS[name][1], registry=self._registry).set_function(read)

    def text(self) -> str:
        """All metrics, as Prometheus reads them."""
        return generate_latest(self._registry).decode()
