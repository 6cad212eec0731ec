#!/usr/bin/python3
"""page.py ENGINE PAGE SAMPLES [TEST ..]: the page in an engine (chromium, firefox, webkit), as a file: every scenario, or those named."""
import sys

import scenarios
from engines import ENGINES, Failed
from person import Person

engine_name, page, samples, *wanted = sys.argv[1:]
engine = ENGINES[engine_name]()
person = Person(engine, page)
try:
    print(f"== {engine.name} {engine.version}")
    for memory, tests in (("auto", scenarios.ALL), ("parts", scenarios.IN_PARTS)):
        person.memory = memory
        for test in tests:
            if not wanted or test.__name__ in wanted:
                print(f"-- {test.__name__}")
                test(person, samples)
    print(f"{engine.name}: {person.passed} passed, 0 failed; the module: {engine.run('return document.body.dataset.module')}")
except Failed as failed:
    sys.exit(f"FAILED in {engine.name}: {failed}")
finally:
    engine.close()
