#!/usr/bin/env bash
# Demodulates captures/alarm.cu8 with the demo, into build/alarm.f32 and build/alarm.wav, sees that its two tones are in
# it, and says how to hear it.
set -euo pipefail
cd "$(dirname "$0")/.."
mkdir -p build
tests/run.sh demo < captures/alarm.cu8 > build/alarm.f32
tests/wav.py build/alarm.f32 build/alarm.wav
