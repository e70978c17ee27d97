#!/usr/bin/env bash
# The command `togmelic` beside what is expected of it: builds it, runs it on every case of rust/command/tests/golden, reads those cases a second time from
# docs/COMMAND.md, with the partner's listings, then runs it on pseudo-terminals, closed pipes and a full device, and on random drafts beside that second
# reading. Last it sees that README.md and docs/COMMAND.md show what it writes. Any step that fails ends it.
# Needs cargo, Python 3, and crates/togmelic/out/libtogmelic.a, which `rt lib` in crates/togmelic writes; TOGMELIC_LIB may name another folder for it,
# by an absolute path.
set -euo pipefail
cd "$(dirname "$0")/.."
source tools/steps.sh

# A script of the command's, which writes what it has seen, or what is wrong.
look() {
    local name=$1
    shift
    step "$name" python3 "tools/$name" "$@" | sed 's/^/command: /'
}

cargo_step build --package togmelic-command --package partner
cargo_step build --package togmelic --examples
cargo_tests togmelic-command
look command_cases.py --check "$built/partner"
look terminal.py "$built/togmelic" "$built/partner"
look command_drafts.py 1 60 "$built/togmelic" "$built/partner"
look readme.py --command "$built/togmelic" "$built/examples/kinds" "$built/examples/starts"
cases=(rust/command/tests/golden/*/)
echo "command: ${#cases[@]} cases"
