#!/usr/bin/env bash
# The example of a configuration has to be the text that a test reads. And the refusals and the faults of decoding in
# docs/profile.md have to be those of the definitions, with their numbers.
set -euo pipefail
cd "$(dirname "$0")/.."

texts=crates/cfdp_tests/src/configs/texts.rt
sed -n '/^\(pub \)\?const EXAMPLE: &str =$/,/^"#;$/p' "$texts" | sed -e 1d -e '/^"#;$/d' -e 's/^    r#"//' \
    | diff examples/entity.toml - \
    || { echo "examples/entity.toml is not the text that a test in $texts reads"; exit 1; }

# The number and the name of each refusal, by its definition.
defined() {
    sed -n 's/^\(refusal_number\|number_of\) (\?\([a-z]*\.\)\?\([A-Za-z]*\)\( fault)\)\? = \([0-9]*\)$/\5 \3/p' \
        crates/{txn_events,entity_routing}/specs/Refusal.antt crates/entity_parts/specs/Refusals.antt | sort -u
}

# The same by the page: rows of the tables of an end and of a lane, and the refusals that have no lane.
told() {
    {
        sed -n '/^### What is refused/,/^### Phases/s/^| \([0-9]*\) | \([A-Za-z]*\) |.*/\1 \2/p' docs/profile.md
        sed -n '/^## Where an event goes/,/^## What a user learns/p' docs/profile.md | grep -oE '[0-9]+ [A-Z][a-z]+[A-Z][A-Za-z]*'
    } | sort -u
}

if [ -z "$(defined)" ] || ! diff <(defined) <(told); then
    echo "the refusals of docs/profile.md are not those of the definitions"
    exit 1
fi

# The number and the name of each fault of decoding, by its definition, and by the rows of the page.
faults() {
    sed -n 's/^fault_number \([A-Za-z]*\) = \([0-9]*\)$/\2 \1/p' crates/pdu_reading/specs/Fault.antt | sort -u
}
told_faults() {
    sed -n "1,/^Octets that aren't a PDU/"'s/^| \([0-9]\{1,2\}\) | \([A-Z][a-z]*[A-Z][A-Za-z]*\) |.*/\1 \2/p' docs/profile.md | sort -u
}

if [ -z "$(faults)" ] || ! diff <(faults) <(told_faults); then
    echo "the faults of decoding in docs/profile.md are not those of the definition"
    exit 1
fi
