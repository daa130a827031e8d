"""The model as a driver: one JSON request a line in, one answer a line out."""

import json
import sys

from .answers import answer

for line in sys.stdin:
    print(json.dumps(answer(json.loads(line))))
