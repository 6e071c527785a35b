# shellcheck shell=bash
# What the scripts of this folder share. They run the program that CALIPER names, or else `caliper`
# of the path, in a folder of their own, which goes at the end.
set -eu -o pipefail
here=$(dirname -- "$(readlink -f -- "$0")")
CALIPER=$(realpath -- "$(command -v -- "${CALIPER:-caliper}")" 2>/dev/null) || {
    echo 'there is no program caliper on the path, nor does CALIPER name one' >&2
    exit 127
}
export here CALIPER PYTHONDONTWRITEBYTECODE=1
folder=$(mktemp -d)
trap 'rm -rf -- "$folder"' EXIT
cd "$folder"

# Where a tool isn't there: says so, and ends with status 77.
need() {
    command -v "$1" >/dev/null || {
        echo "skipped: there is no $1 here"
        exit 77
    }
}

# make_profiles RANKS: the profile of each rank, rankN.cali, one after another.
make_profiles() {
    local rank
    for ((rank = 0; rank < $1; rank++)); do
        "$here/rank-script" "$rank" | "$CALIPER" replay >"rank$rank.cali"
    done
}

# fold_profiles: an answer over up to 64 profiles each, nodeN.json, one after another.
fold_profiles() {
    local part
    find . -name 'rank*.cali' | split -l 64 - part.
    for part in part.*; do
        xargs "$here/fold" <"$part" >"node${part#part}.json"
    done
}

# compare RANKS ANSWER: whether the joined answer is that of one query over all records, of which
# one script of all ranks leaves a trace.
compare() {
    "$here/rank-script" --all "$1" | "$CALIPER" replay >all.cali
    "$CALIPER" query --q="$(cat "$here/regions.calql")" <all.cali >all.json
    "$here/rows.py" same "$2" all.json
}
