"""How long the page's own thread is held by one task, in processor time.

Chromium traces each task of a thread with the time that the thread had a processor. So a busy machine, on which
the thread waits for its turn, changes little.
"""

import time
from collections.abc import Callable
from typing import Any

from browser import Browser
from common import Bad

OF_TASKS = "disabled-by-default-devtools.timeline"  # the category in which Chromium traces them
TASK, THREAD = "RunTask", "CrRendererMain"
PATIENCE = 60.0  # seconds


def traced(browser: Browser, work: Callable[[], None]) -> list[dict[str, Any]]:
    """What Chromium traces during some work."""
    browser.traced, browser.is_traced = [], False
    given = {"includedCategories": [OF_TASKS, "__metadata"], "excludedCategories": ["*"]}
    browser.call("Tracing.start", transferMode="ReportEvents", traceConfig=given)
    try:
        work()
    finally:
        browser.call("Tracing.end")
        until = time.monotonic() + PATIENCE
        while not browser.is_traced:
            browser.value("0")
            if time.monotonic() > until:
                raise Bad("the trace never ended")
    return browser.traced


def longest_task(browser: Browser, work: Callable[[], None]) -> float:
    """The seconds of processor time that the longest task of the page's thread took during some work."""
    events = traced(browser, work)
    named = [it for it in events if it["name"] == "thread_name"]
    threads = {(it["pid"], it["tid"]) for it in named if it["args"]["name"] == THREAD}
    tasks = [it for it in events if it["name"] == TASK and (it["pid"], it["tid"]) in threads]
    times: list[int] = [it["tdur"] for it in tasks if "tdur" in it]
    if not times:
        raise Bad("no task of the page's thread was traced")
    return max(times) / 1e6
