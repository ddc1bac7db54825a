#!/bin/sh
# Builds the monitor's measurements and runs them: nanoseconds of one enter, and the ratio to a mutex round the same
# machine. Then four threads enter for turns of about a millisecond; the last line is the processor time that this took,
# user and system.
set -eu
cd "$(dirname "$0")/../crates/drb_monitor_bench"
rt run -- measure
(
  out/drb_monitor_bench hold
  times
)
