# Compares what is pinned, the first file, with what the source has, the second, entry by entry:
# says which are changed, missing or new, with both texts. Its last line is PASSED FAILED.
# `kind` is contract (a line with the name, then the text indented) or definition (a line with
# a checksum, then the name).

{ side = FILENAME == ARGV[1] ? "pinned" : "source" }
kind == "contract" && /^ / { text[side, name] = text[side, name] "\n  " side ": " $0; next }
kind == "contract" { name = $0; shown = "" }
kind == "definition" { name = substr($0, index($0, " ") + 1); shown = "\n  " side ": " $1 }
{
    text[side, name] = shown
    if (!(name in known)) { known[name] = 1; names[++count] = name }
}

END {
    for (i = 1; i <= count; i++) {
        name = names[i]
        pinned = text["pinned", name]
        source = text["source", name]
        same = source
        gsub(/\n  source: /, "\n  pinned: ", same)
        if (same == pinned) { passed++; continue }
        failed++
        print (pinned == "" ? "new" : source == "" ? "missing" : "changed") ": " kind " " name pinned source
    }
    print passed + 0, failed + 0
}
