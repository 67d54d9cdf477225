#!/usr/bin/env bash
# Counts instructions by callgrind: a node for the table operations, for the layout, plain and for
# TreeTeX, and for the published pointer method (its baseline, which does not check the table), a byte
# for reading and for writing a sheet file (a write checks the table too) and for reading a Newick
# text, a call for judging a node on the screen, for writing a small tree and for finding the trees of
# dots. Only the calls themselves count. The part `time` takes the time of a layout beside the pointer
# method's and, where Debian's node-d3-hierarchy is installed, that of d3's tree. The part `listing`
# does both for the whole way from a sheet's bytes to its listing; it needs the program `listing` too,
# from ../crates/listing/out or the folder that HIWENOKA_BIN_DIR names.
#
# Usage: bench.sh [table] [sheet] [newick] [screen] [small_trees] [trees_of_dots] [layout] [treetex]
# [time] [listing]; all ten if none is named.
set -euo pipefail
cd "$(dirname "$0")"

if ! command -v valgrind >/dev/null; then
    { apt-get update && apt-get install -y valgrind; } >&2
fi

programs="${CARGO_TARGET_DIR:-target}/release"
counts="$(mktemp -d)"
results="$(mktemp -d)"
trap 'rm -rf "$counts" "$results"' EXIT
export NODE_PATH="${NODE_PATH:-/usr/share/nodejs}"

# measure PROGRAM SYMBOL [OPERATION]: adds to each case of the program the instructions of its call,
# the symbol's calls and their cases being in one order.
measure() {
    local program="$programs/$1" symbol="$2"
    shift 2
    rm -f "$counts"/*
    "$program" cases "$@" >"$counts/cases"
    valgrind --tool=callgrind --callgrind-out-file="$counts/call" \
        --toggle-collect="$symbol" --dump-after="$symbol" \
        "$program" run "$@" 2>"$counts/messages" || {
        cat "$counts/messages" >&2
        return 1
    }
    local call=0 line instructions
    while read -r line; do
        call=$((call + 1))
        instructions="$(awk '$1 == "totals:" { print $2 }' "$counts/call.$call")"
        [ "${instructions:-0}" -gt 0 ] || {
            echo "bench.sh: call $call of $symbol was not counted" >&2
            return 1
        }
        echo "$line $instructions"
    done <"$counts/cases"
}

# count_program PROGRAM SHEET: the instructions of the whole program with the sheet as its input. Its
# environment is empty, since the loader goes through it.
count_program() {
    env -i "$(command -v valgrind)" --tool=callgrind --callgrind-out-file="$counts/program" \
        "$1" <"$2" 2>"$counts/messages" >"$counts/printed" || {
        cat "$counts/messages" >&2
        return 1
    }
    cmp "$counts/printed" "${2%.sheet}.listing" >&2 || return 1
    awk '$1 == "totals:" { print $2 }' "$counts/program"
}

# split_call SHAPE: where the instructions of a listing go, of the calls that were last measured. The
# text is what the call's own function does, since the compiler puts all its parts into that.
split_call() {
    local call
    call="$(awk -v shape="$1" '$2 == shape { print NR }' "$counts/cases")"
    callgrind_annotate --threshold=100 "$counts/call.$call" | awk -v shape="$1" '
        { count = $1; gsub(",", "", count) }
        / PROGRAM TOTALS/ { total = count }
        /:(sheet::read_sheet|blocks::check::sums_of) / { part["reading"] += count }
        /:tree::judge::judge / { part["table check"] = count }
        /:layout::(layout|draw) / { part["layout"] += count }
        /:hiwenoka_list_sheet / { part["text"] = count }
        /:__memset_[^ ]* / { part["clearing"] += count }
        END {
            parts = split("reading,table check,layout,text,clearing", names, ",")
            for (p = 1; p <= parts; p++) {
                value = part[names[p]]
                counted += value
                line = line sprintf("%s %s %d (%.1f %%)", p > 1 ? "," : "", names[p], value, 100 * value / total)
            }
            # A function that is missing has been put into another one.
            if (parts == length(part) && counted == total) print "Instructions of the call for " shape ":" line
        }'
}

# has_d3: whether d3 is there; says so if it is not.
has_d3() {
    node -e 'require("d3-hierarchy")' 2>/dev/null || {
        echo "d3: Debian's node-d3-hierarchy is not installed"
        return 1
    }
}

# report TITLE: a row for each operation and shape, a column for each size, and the greatest figure
# of the row divided by the least.
report() {
    awk -v title="$1" '
        {
            row = sprintf("%-10s %-12s", $1, $2)
            if (!(row in seen)) { seen[row] = 1; rows[++row_count] = row }
            if (!($3 in sizes)) { sizes[$3] = 1; columns[++column_count] = $3 }
            figure[row, $3] = $5 / $4
        }
        END {
            print title
            printf "%-23s", ""
            for (c = 1; c <= column_count; c++) printf " %9d", columns[c]
            printf " %9s\n", "max/min"
            for (r = 1; r <= row_count; r++) {
                printf "%s", rows[r]
                least = greatest = figure[rows[r], columns[1]]
                for (c = 1; c <= column_count; c++) {
                    value = figure[rows[r], columns[c]]
                    if (value < least) least = value
                    if (value > greatest) greatest = value
                    printf " %9.2f", value
                }
                printf " %9.3f\n", greatest / least
            }
            print ""
        }'
}

# of_each_list: of the calls for all trees of a list, by place, the mean, the least and the greatest,
# and the first and the last alone.
of_each_list() {
    awk '
        {
            calls[$3]++
            sum[$3] += $5
            if (calls[$3] == 1) first[$3] = least[$3] = greatest[$3] = $5
            if ($5 < least[$3]) least[$3] = $5
            if ($5 > greatest[$3]) greatest[$3] = $5
            last[$3] = $5
            if ($3 > most) most = $3
        }
        END {
            for (n = 1; n <= most; n++) print "all mean", n, calls[n], sum[n]
            for (n = 1; n <= most; n++) print "all least", n, 1, least[n]
            for (n = 1; n <= most; n++) print "all greatest", n, 1, greatest[n]
            for (n = 1; n <= most; n++) print "first star", n, 1, first[n]
            for (n = 1; n <= most; n++) print "last chain", n, 1, last[n]
        }'
}

# most_and_least: of the calls for all trees of the greatest count of nodes, those that took most and
# least, by how many dots are on each level from the top, and how many trees have as many.
most_and_least() {
    awk '
        $3 > most { most = $3; split("", trees); split("", greatest); split("", least) }
        $3 == most {
            if (!($2 in trees) || $5 > greatest[$2]) greatest[$2] = $5
            if (!($2 in trees) || $5 < least[$2]) least[$2] = $5
            trees[$2]++
        }
        END {
            for (levels in trees) {
                if (!worst || greatest[levels] > greatest[worst]) worst = levels
                if (!best || least[levels] < least[best]) best = levels
            }
            printf "%d nodes: at most %d, for levels of %s, as %d trees have; ", most, greatest[worst], worst, trees[worst]
            printf "at least %d, for levels of %s, as %d have\n\n", least[best], best, trees[best]
        }'
}

build() {
    cargo build --quiet --offline --release --features bench --bin "$1"
}

if [ $# -eq 0 ]; then
    set -- table sheet newick screen small_trees trees_of_dots layout treetex time listing
fi
for part in "$@"; do
    case "$part" in
    table)
        build bench_table
        {
            measure bench_table hiwenoka_check_table check
            measure bench_table hiwenoka_mirror mirror
            measure bench_table hiwenoka_renumber renumber
        } | report "Table operations: instructions a node, by count of nodes"
        ;;
    sheet)
        build bench_sheet
        {
            measure bench_sheet hiwenoka_read_sheet read
            measure bench_sheet hiwenoka_write_sheet write
            measure bench_sheet hiwenoka_check_table check
        } | report "Sheet files, and the table check in a write: instructions a byte, by count of blocks"
        ;;
    newick)
        build bench_newick
        echo "Newick texts, by the digits of their labels: instructions a byte, by count of bytes"
        measure bench_newick hiwenoka_read_newick long | report "Long labels, read; 1,024 nodes have 12,287 bytes at most"
        measure bench_newick hiwenoka_read_newick short | report "Short labels, read"
        measure bench_newick hiwenoka_read_newick broken | report "Refused for the last byte, 15"
        measure bench_newick hiwenoka_read_newick crowded | report "Refused for more than 1,024 nodes, 16"
        ;;
    screen)
        build bench_screen
        echo "A node judged on the studio screen: instructions a call, by eight times the zoom"
        measure bench_screen hiwenoka_on_screen zooms | report "On screen, off, and refused for a centre or the place, 19"
        measure bench_screen hiwenoka_on_screen others | report "Refused for another zoom, 18"
        ;;
    small_trees)
        build bench_small_trees
        echo "Small trees: instructions a call, by count of nodes"
        measure bench_small_trees hiwenoka_small_tree trees | of_each_list | report "Written"
        measure bench_small_trees hiwenoka_small_tree places | report "Refused for the place, 21, and for the length of the table, 7"
        measure bench_small_trees hiwenoka_small_tree counts | report "Refused for the count of nodes, 20"
        ;;
    trees_of_dots)
        build bench_trees_of_dots
        echo "Trees of dots: instructions a call, by count of nodes"
        for separation in 1 2 1024; do
            measure bench_trees_of_dots hiwenoka_trees_of_dots "dots-$separation" >"$results/dots"
            of_each_list <"$results/dots" | report "Dots of every tree, D = $separation"
            most_and_least <"$results/dots"
        done
        measure bench_trees_of_dots hiwenoka_trees_of_dots none >"$results/dots"
        of_each_list <"$results/dots" | report "The same with the last dot moved, D = 2: no tree fits"
        most_and_least <"$results/dots"
        measure bench_trees_of_dots hiwenoka_trees_of_dots refused | report "Refused for the count of nodes, 20, the length or a level, 22, and the separation, 6"
        measure bench_trees_of_dots hiwenoka_trees_of_dots order | report "Refused for the order of the dots, 22"
        ;;
    layout)
        build bench_layout
        build bench_pointer
        {
            measure bench_layout hiwenoka_layout layout
            measure bench_layout hiwenoka_layout wide
            measure bench_layout hiwenoka_check_table check
        } | report "Layout without and with half-widths, and the table check in it: instructions a node, by count of nodes"
        {
            measure bench_pointer pointer_places places
            measure bench_pointer pointer_record record
            measure bench_pointer pointer_record wide
        } | report "Published pointer method without and with half-widths: instructions a node, by count of nodes"
        ;;
    treetex)
        build bench_treetex
        {
            measure bench_treetex hiwenoka_layout plain
            measure bench_treetex hiwenoka_layout_treetex extra-0
            measure bench_treetex hiwenoka_layout_treetex extra-7
        } | report "Plain layout of trees with at most two children a node, and for TreeTeX with E = 0 and 7: instructions a node, by count of nodes"
        ;;
    time)
        build time_layout
        "$programs/time_layout" run >"$counts/ours"
        echo "shape d3" >"$counts/d3"
        if has_d3; then
            "$programs/time_layout" trees | node d3.js >>"$counts/d3"
        fi
        echo "Layout of 1,024 nodes: nanoseconds, and how many times as long the others take; of d3, the tree"
        echo "alone, and with its hierarchy, which is built from the nodes as a layout builds on a table"
        printf "%-12s %9s %9s %7s %9s %7s %9s %7s\n" "" layout pointer times d3 times whole times
        awk 'FNR == NR { tree[$1] = $2; whole[$1] = $3; next }
            {
                printf "%-12s %9d %9d %7.2f", $1, $2, $3, $3 / $2
                if ($1 in tree) printf " %9d %7.1f %9d %7.1f", tree[$1], tree[$1] / $2, whole[$1], whole[$1] / $2
                print ""
            }' "$counts/d3" "$counts/ours"
        ;;
    listing)
        build bench_listing
        measure bench_listing hiwenoka_list_sheet library >"$results/library"
        split_call random >"$results/split"
        measure bench_listing plain_by_hand hand >"$results/hand"
        "$programs/bench_listing" sheets "$results"
        while read -r _ shape _; do
            instructions="$(count_program "${HIWENOKA_BIN_DIR:-../crates/listing/out}/listing" "$results/$shape.sheet")"
            echo "$shape $instructions"
        done <"$results/library" >"$results/program"
        "$programs/bench_listing" time >"$results/time"
        touch "$results/d3"
        if has_d3; then
            node d3_listing.js "$results" >"$results/d3"
        fi
        echo "Whole way of a sheet of 1,024 nodes, from its bytes to its listing (D = 5, tape numbers of up to 32 bits, half-widths 0)"
        echo "instructions: one call of hiwenoka_list_sheet, and a node; by hand; the whole program, its start included"
        echo "time: nanoseconds of one call, and how many times as long the others take in the same run"
        echo "  model    the Rust reference: the written rule, taken literally"
        echo "  write!   a plain Rust program: no checks, the published pointer method, lines by write! into a Vec<u8>"
        echo "  by hand  the same with lines by hand, two digits at a time"
        echo "  d3       JavaScript: no checks, d3's hierarchy and tree, the text as one string"
        printf "%-12s %8s %8s %8s %8s %9s %7s %7s %8s %7s\n" \
            "" call "a node" "by hand" program ns model "write!" "by hand" d3
        awk '
            FILENAME ~ "/library$" { nodes[$2] = $4; call[$2] = $5; next }
            FILENAME ~ "/hand$" { hand[$2] = $5; next }
            FILENAME ~ "/program$" { program[$1] = $2; next }
            FILENAME ~ "/d3$" { d3[$1] = $2; next }
            {
                printf "%-12s %8d %8.1f %8d %8d", $1, call[$1], call[$1] / nodes[$1], hand[$1], program[$1]
                printf " %9d %7.1f %7.2f %8.2f", $2, $3 / $2, $4 / $2, $5 / $2
                if ($1 in d3) printf " %7.1f", d3[$1] / $2
                print ""
            }' "$results/library" "$results/hand" "$results/program" "$results/d3" "$results/time"
        cat "$results/split"
        ;;
    *)
        echo "bench.sh: no part named $part" >&2
        exit 2
        ;;
    esac
done
