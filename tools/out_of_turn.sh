#!/usr/bin/env bash
# Tries that the types refuse each call of the bench out of turn.
#
# out_of_turn/client.txt makes each call in turn. For each trial the line of one of its calls is put a second time,
# where the bench is in the other phase, and `rt check` has to refuse that since this bench has no method of that name,
# and for no other error. The client as it stands has to be proved. All of it is done in a copy of the repository.
# It exits with 0 where every trial came out as expected, and with 1 where one did not.
cd "$(dirname "$0")/.." || exit 1
text=$PWD/tools/out_of_turn/client.txt
copy=$(mktemp -d) || exit 1
trap 'rm -rf "$copy"' EXIT
tar -c --exclude=out crates crates.txt | tar -x -C "$copy" || exit 1
client=$copy/crates/out_of_turn
mkdir -p "$client/src" || exit 1
echo 'out_of_turn: lts formula bench' >> "$copy/crates.txt"
bad=0

# Prints what the check says of the client that is read from standard input.
check() {
    cat > "$client/src/lib.rt"
    (cd "$client" && rt check 2>&1)
}

# Prints the client with the line of a call put also behind the line of another call.
with_call_behind() {
    awk -v call="$1(" -v other="$2(" '
        NR == FNR { if (index($0, call)) line = $0; next }
        { print }
        index($0, other) { print line }
    ' "$text" "$text"
}

# Tells whether a trial came out as expected, and if not, what the check said.
tell() {
    local met=$1 name=$2 said=$3
    if [ "$met" = yes ]; then
        echo "ok   $name"
    else
        echo "BAD  $name"
        echo "$said" | tail -n 20
        bad=1
    fi
}

# A call behind another is refused, since the bench that this leaves has no such method.
refused() {
    local call=$1 other=$2 bench=$3 said status met=no
    said=$(with_call_behind ".$call" "$other" | check)
    status=$?
    if [ "$status" -eq 1 ] && [ "$(grep -c 'error\[' <<< "$said")" -eq 1 ] &&
        grep -qF "error[unknown-method]: no method named \`$call\` found for type \`$bench<" <<< "$said"; then
        met=yes
    fi
    tell "$met" "refused: $call on $bench" "$said"
}

in_turn() {
    local said met=no
    if said=$(check < "$text") && grep -q '^logic=proved' <<< "$said"; then
        met=yes
    fi
    tell "$met" "proved: each call in turn" "$said"
}

for call in rule reach alike tell reopen; do
    refused "$call" OpenBench::open OpenBench
done
for call in enter settle; do
    refused "$call" .settle SettledBench
done
in_turn
exit "$bad"
