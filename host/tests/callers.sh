#!/bin/sh
# Who scores, and who makes scorings. The number of `license_charge::Scorings` is private to its crate, so the compiler holds that every scoring is
# charged; what it cannot hold is that no other crate calls the functions below, which this test lists. A new caller fails it.
# The last line is 'N passed, M failed'; the exit status is 0 only where M is 0.
set -eu
cd "$(dirname "$0")/../.."
passed=0 failed=0
# callers CRATE NAME EXPECTED: the crates that name CRATE::NAME, alone or in the braces behind CRATE::, sorted, are EXPECTED
callers() {
    found=$(grep -rlzE "(^|[^a-z_:])$1::(\{([^}]*[^a-z_])?)?$2([^a-z_]|\$)" crates --include='*.rt' --exclude-dir=out | sed 's|crates/\([^/]*\)/.*|\1|' | sort -u | tr '\n' ' ')
    if [ "$found" = "$3 " ]; then
        passed=$((passed + 1))
    else
        echo "$1::$2 is called from: ${found:-nowhere }; it may be called from: $3"
        failed=$((failed + 1))
    fi
}
callers ngram_meet scoring 'license_charge'
callers license_charge charge 'detect'
callers license_charge charge_exact 'license_bounds replay_scores score_work'
# the type's name is known where it is handed on; who makes one writes Scorings::of, called, handed on or behind <Scorings>, and nobody gives the type
# or `of` another name; the crate itself does not count
made=$(grep -rlzE 'Scorings[[:space:]]*>?[[:space:]]*::[[:space:]]*of([^a-z_]|$)' crates --include='*.rt' --exclude-dir=out | sed 's|crates/\([^/]*\)/.*|\1|' | grep -vx license_charge |
    sort -u | tr '\n' ' ')
renamed=$(grep -rlE 'Scorings as |[^a-z_]of as |= *(license_charge::)?Scorings;' crates --include='*.rt' --exclude-dir=out | tr '\n' ' ')
if [ "$made" = 'bounds_work replay_scores scan_job score_work ' ] && [ -z "$renamed" ]; then
    passed=$((passed + 1))
else
    echo "Scorings::of is called from: ${made:-nowhere }; it may be called from: bounds_work replay_scores scan_job score_work; other names: ${renamed:-none}"
    failed=$((failed + 1))
fi
# and none takes them in under another name
for crate in ngram_meet license_charge; do
    if grep -rlzE "use $crate( as |::\*|;|::\{([^}]*[^a-z_])?(self[^a-z_]|\*))" crates --include='*.rt' --exclude-dir=out; then
        echo "$crate is taken in whole or under another name: name its functions one by one"
        failed=$((failed + 1))
    else
        passed=$((passed + 1))
    fi
done
echo "$passed passed, $failed failed"
[ "$failed" = 0 ]
