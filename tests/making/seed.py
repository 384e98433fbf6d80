"""The seed of all random choices of the tests."""

import os

SEED = int(os.environ.get("SQZ_SEED", "1"))
