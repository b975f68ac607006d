"""The trace as it stands in its file, and its report as a page."""
import subprocess
import sys
from pathlib import Path

MOST = 24000000  # bytes of a trace that are handed on
PATIENCE = 60  # seconds that a report may take


def trace_of(path):
    """The trace: the part that was put aside, where there is one, and what came after it."""
    parts = [each for each in (Path(f"{path}.1"), Path(path)) if each.is_file()]
    return b"".join(each.read_bytes() for each in parts)[-MOST:]


def report_of(settings, path):
    """The page that `osdp-report` makes of the trace; none where it fails."""
    words = [sys.executable, "-B", settings["report"], "--osdp", settings["osdp"]]
    try:
        done = subprocess.run(words, input=trace_of(path), capture_output=True, timeout=PATIENCE, check=False)
    except (OSError, subprocess.TimeoutExpired):
        return None
    return done.stdout if done.returncode == 0 and done.stdout else None
