#!/usr/bin/env bash
# How long the built reader takes over texts of a million digits: proves and builds the tests of
# the model, and times the one that reads five such texts.
set -eu
cd "$(dirname "$0")/../crates/model_tests"
rt test > /dev/null
time ./out/model_tests_tests exact::judges_a_million_digits
