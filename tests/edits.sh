#!/bin/sh
# Reads what `rt ci` said of the must-fail edits, in the file that is named, and fails where one was refused for its form (a name that is not in scope, a
# record without such a field, a proof file that names what the edit took away ..) and not for a fact that does not hold, or where it said nothing of one.
set -u
said=${1:?the file with what rt ci said}
cd "$(dirname "$0")/.." || exit 2

# what the prover says of a fact that fails: two types that differ, two terms that are not the same, arithmetic or equations that do not follow, an equation
# or a promise that is left open. rt cuts what it repeats, so of a comparison there may be no more than the beginning.
fact='the two (types|indices|sides)|expected type|does not hold|does not follow from what it read|the equations do not join|list the missing equation'
fact="$fact|give a proof of that as the last argument|\`search\`: no proof of|no occurrence of the path|it is not proved that|error: \`[^\`]+\`: \`[a-z]+\\.[^\`]*\$"
form='only because a proof file names|is not in scope|has no field|has no `|can be named from here|cannot read the edited text|only by a limit of the prover'

all=$(ls crates/*/must-fail/*.edit | wc -l)
refused=$(grep -c ': refused, as it must be' "$said")
bad=0
for kind in "$(grep ': refused, as it must be' "$said" | grep -vE "$fact")" "$(grep ': refused, as it must be' "$said" | grep -E "$form")"; do
    [ -z "$kind" ] || { echo "$kind" | sed 's/^/edits: not refused for a fact: /' | cut -c1-400; bad=1; }
done
[ "$refused" -eq "$all" ] || bad=1
echo "edits: $all stand, $refused are told as refused"
[ "$bad" -eq 0 ]
