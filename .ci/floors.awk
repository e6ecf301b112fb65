# Compares the floors, the first file, with what the source has, the second: lines N, KIND, WHERE.
# Each of `steps` must have a floor for what it counts; some of these only the gate can compare.
# The last line is PASSED FAILED.

function fail(words) { print "FAILED: " words; failed++ }

/^#/ { next }
NF != 3 || $1 !~ /^[0-9]+$/ { fail("no floor: " $0); next }
FILENAME == ARGV[1] { least[$2 " " $3] = $1; next }
{ have[$2 " " $3] = $1 }

END {
    n = split(steps, step, " ")
    for (i = 1; i <= n; i++)
        if (least["counted " step[i]] < 1) fail("no floor for what the step " step[i] " counts")
    for (key in have)
        if (!(key in least)) fail("no floor for " have[key] " " key)
    for (key in least) {
        if (key ~ /^counted / && !(key in have)) passed++
        else if (have[key] < least[key]) fail("fewer: " have[key] + 0 " " key ", at least " least[key])
        else passed++
    }
    print passed + 0, failed + 0
}
