#!/usr/bin/env python3
"""What `judge` must print for each plan of plans/: NAME.answer for NAME.plan, in the folder given.

    python3 independent/plans.py plans
"""

import os
import sys

from answers import printed

PLANS = os.path.join(os.path.dirname(os.path.dirname(os.path.abspath(__file__))), "plans")

for name in sorted(os.listdir(PLANS)):
    if name.endswith(".plan"):
        with open(os.path.join(PLANS, name), encoding="latin-1", newline="") as plan:
            answer = printed(plan.read())
        with open(os.path.join(sys.argv[1], name[: -len(".plan")] + ".answer"), "w", newline="") as out:
            out.write(answer)
