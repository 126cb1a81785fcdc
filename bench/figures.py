"""Figures, their rounds and their baselines, as lines that people read."""
import os
import statistics


def load():
    """The machine's load over 1, 5 and 15 minutes."""
    return f"# load {' '.join(f'{it:.2f}' for it in os.getloadavg())}, {os.cpu_count()} processors"


def shown(values, unit):
    median = statistics.median(values)
    spread = "" if len(values) == 1 else f" (spread {100 * (max(values) - min(values)) / max(median, 1):.0f}%)"
    return f"{median:.0f} {unit}{spread}"


def shown_ratio(ratio):
    return f"{ratio:.2f}" if ratio >= 0.1 else f"{ratio:.1g}"


def print_figures(ours, baselines):
    """Prints a line per figure of ours, beside those of the baselines that are NAME or NAME@KIND."""
    for (name, unit), values in ours.items():
        line = f"{name}: {shown(values, unit)}"
        for (other, other_unit), other_values in baselines.items():
            title, _, kind = other.partition("@")
            if title == name:
                ratio = shown_ratio(statistics.median(values) / statistics.median(other_values))
                line += f", baseline {kind + ' ' if kind else ''}{shown(other_values, other_unit)}, ratio {ratio}"
        print(line, flush=True)
