# Counts what the test files hold, comments dropped, and prints N, KIND, FILE: of Rust the tests
# and the asserts, of C and of shell scripts the calls of functions that make checks. In C these
# take the words that name a check, in shell scripts their usage comment has WHAT.

FILENAME ~ /\.sh$/ && /^[a-z_]+\(\) .*# .*WHAT/ { makes_checks[substr($1, 1, length($1) - 2)] = 1 }
FILENAME ~ /\.sh$/ { sub(/^#.*| #.*/, "") }
FILENAME !~ /\.sh$/ { sub(/\/\/.*/, "") }
FNR == 1 { names[++files] = FILENAME }
{ text[FILENAME] = text[FILENAME] "\n" $0 }

END {
    for (i = 1; i <= files; i++) {
        if (names[i] !~ /\.sh$/) drop_block_comments(names[i])
        if (names[i] ~ /\.[ch]$/) find_checks(text[names[i]])
    }
    for (i = 1; i <= files; i++) {
        if (names[i] ~ /\.rs$/) {
            report(gsub(/#\[test\]/, "&", text[names[i]]), "tests", names[i])
            report(gsub(/assert[a-z_]*!/, "&", text[names[i]]), "asserts", names[i])
        } else report(calls(names[i]), "checks", names[i])
    }
}

function report(n, kind, name) { if (n > 0) print n, kind, name }

function drop_block_comments(name,    s, rest, n) {
    rest = text[name]
    while (n = index(rest, "/*")) {
        s = s substr(rest, 1, n - 1)
        rest = substr(rest, n)
        n = index(rest, "*/")
        rest = n ? substr(rest, n + 2) : ""
    }
    text[name] = s rest
}

# The functions of C that are told what they check.
function find_checks(s,    name) {
    while (match(s, /[a-z_0-9]+\([^(){};]*const char \*(group|what)[^(){};]*\) \{/)) {
        name = substr(s, RSTART, RLENGTH)
        s = substr(s, RSTART + RLENGTH)
        makes_checks[substr(name, 1, index(name, "(") - 1)] = 1
    }
}

function calls(name,    s, check, n) {
    for (check in makes_checks) {
        s = text[name]
        if (!index(s, check)) continue
        if (name ~ /\.sh$/) n += gsub("[\n;{] *" check " ", "&", s)
        else {
            n += gsub("[^A-Za-z0-9_]" check "\\(", "&", s)
            n -= gsub("[^A-Za-z0-9_]" check "\\([^(){};]*\\) \\{", "&", s)
        }
    }
    return n
}
