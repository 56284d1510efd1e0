#!/usr/bin/env bash
# Builds the measuring program and measures how long it takes on adversarial objects.
set -euo pipefail
cd "$(dirname "$0")/.."
tools/build.sh measure measure.log
tools/hostile.py "${MEASURE:-crates/measure/out/measure}" out "${1:-20}"
