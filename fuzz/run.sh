#!/bin/sh
# Runs fuzz targets one after another, each for its share of the seconds:
#   fuzz/run.sh SECONDS SEED TARGET ...
# They start from the kept corpus, fuzz/corpus. What is new goes to target/fuzz/corpus, what
# libFuzzer says to target/fuzz/TARGET.log. An input that a target fails on is left as
# target/fuzz/TARGET-crash-..., and the run fails. The last lines are one for each target.
seconds=$1
seed=$2
shift 2
share=$((seconds / $#))
[ "$share" -gt 0 ] || share=1
failed=0
lines=
export ASAN_OPTIONS=quarantine_size_mb=16

# a figure of libFuzzer's last statistics
figure() {
    sed -n "s/^stat::$1: *//p" "$log"
}

for target; do
    log=target/fuzz/$target.log
    found=target/fuzz/corpus/$target
    mkdir -p "$found"
    echo "$target: $share seconds with -seed=$seed"
    if target/fuzz/"$target" -seed="$seed" -max_total_time=$share -max_len=4096 -timeout=10 -rss_limit_mb=2048 \
        -artifact_prefix=target/fuzz/"$target"- -print_final_stats=1 "$found" fuzz/corpus/"$target" >"$log" 2>&1; then
        end='no failure'
    else
        end="FAILED, see $log"
        failed=1
        grep -aE 'Assertion|ERROR|runtime error|SUMMARY|written to' "$log"
    fi
    coverage=$(grep -aoE 'cov: [0-9]+' "$log" | tail -n 1 | cut -d ' ' -f 2)
    lines="$lines$target: $(figure number_of_executed_units) runs, $share seconds, ${coverage:-no} edges covered, \
$(figure new_units_added) new inputs, $end
"
done
printf '%s' "$lines"
exit $failed
