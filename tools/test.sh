#!/usr/bin/env bash
# The one command for tests, from any folder: unit tests of the tools, the gate `rt ci`, and tests on the program that it built.
#
#     tools/test.sh [--quick | --after-gate [--program PATH]] [--seed S]
#
# dev/run_tests.py says what it runs and what the options do. The last line is `N passed, M failed`.
set -eu
exec python3 "$(dirname -- "${BASH_SOURCE[0]}")/../dev/run_tests.py" "$@"
