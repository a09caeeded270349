# Makes a shell ready for the commands of the transcripts. To paste some, copy the folder that is named as their file, if there is
# one, begin there with `env -i PATH="$PATH" bash --norc`, and read this file with `.`.

# The top of the repository.
top=$(cd "$(dirname "${BASH_SOURCE[0]}")/../.." && pwd)
for main in "$top"/crates/*/src/main.rt; do
    PATH=${main%/src/main.rt}/out:$PATH
done
export PATH LC_ALL=C
set -o pipefail

# Shows the times of a run as 0, since nobody knows them.
timeless() {
    sed -E 's/finished in [0-9]+\.[0-9]{2}s/finished in 0.00s/; s/<[0-9]+\.[0-9]{3}s>/<0.000s>/; s/("exec_time": )[0-9.]+/\10/'
}

# Prints a report in JSON of trials, such as
#
#     report --took 1.5 --out 3 'ok a' 'ok [kind] b <0.25>' 'ignored c' 'failed d' 'failed e: its message' 'bench f: 1234 5'
#
# The run took 1.5 seconds, and 3 trials were filtered out. The first trial with a kind has a time. A benchmark has an average, and a
# deviation, which is 1 if it isn't there. Texts are as JSON has them between its quotes.
report() {
    local took=0 out=0 trial end=ok
    while [[ $1 == --* ]]; do
        case $1 in --took) took=$2 ;; --out) out=$2 ;; esac
        shift 2
    done
    local -A count=([ok]=0 [failed]=0 [ignored]=0 [bench]=0)
    for trial; do count[${trial%% *}]=$((count[${trial%% *}] + 1)); done
    if ((count[failed])); then end=failed; fi
    begun $# "$@"
    printf '{ "type": "suite", "event": "%s", "passed": %s, "failed": %s, "ignored": %s, "measured": %s, ' \
        $end "${count[ok]}" "${count[failed]}" "${count[ignored]}" "${count[bench]}"
    printf '"filtered_out": %s, "exec_time": %s }\n' "$out" "$took"
}

# Prints a report that announces a number of trials and is cut after these, as in `begun 3 'ok a' 'running [kind] b'`.
begun() {
    printf '{ "type": "suite", "event": "started", "test_count": %s }\n' "$1"
    rows "${@:2}"
}

# Prints the lines of trials alone: two each, or one if the trial is running.
rows() {
    local trial event text label time said average deviation
    for trial; do
        event=${trial%% *} text=${trial#* } label='' time='' said=''
        if [[ $text =~ ^(.*)' <'([0-9.]+)'>'$ ]]; then
            text=${BASH_REMATCH[1]} time=", \"exec_time\": ${BASH_REMATCH[2]}"
        fi
        if [[ $text =~ ^'['(.*)'] '(.*)$ ]]; then
            text=${BASH_REMATCH[2]} label=", \"kind\": \"${BASH_REMATCH[1]}\""
        fi
        if [[ $event == bench ]]; then
            read -r average deviation <<<"${text##*: }"
            said=", \"median\": $average, \"deviation\": ${deviation:-1}" text=${text%: *}
        elif [[ $event == failed && $text == *': '* ]]; then
            said=", \"stdout\": \"Error: \\\"${text#*: }\\\"\\n\"" text=${text%%: *}
        fi
        label="\"name\": \"$text\"$label"
        printf '{ "type": "test", "event": "started", %s }\n' "$label"
        case $event in
            running) ;;
            bench) printf '{ "type": "bench", %s }\n' "$label$said$time" ;;
            *) printf '{ "type": "test", %s, "event": "%s"%s }\n' "$label" "$event" "$time$said" ;;
        esac
    done
}

# Prints the lines of failures as a file of known ones has them, as in `failures a '[kind] b' 'c: its message'`.
failures() {
    local failure
    for failure; do rows "failed $failure" | tail -n 1; done
}

# Prints the report of `example_sums`.
sums() { report 'ok 1 + 1' 'failed 2 + 2: assertion `left == right` failed\n  left: 4\n right: 5' 'ok 7 + 0'; }
