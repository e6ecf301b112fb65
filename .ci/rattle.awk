# Reads Rattle source files, named below crates/, and writes with comments dropped and
# whitespace folded:
#   contracts  of each public function its path, then its signature and each clause
#   texts      FILE, NAME, TEXT between tabs: structs, enums, public constants and those that a
#              text here names, use lines, and whole each impl of one of the library's traits that
#              states its contract in a ghost member
#   faults     public functions with a requires or without an ensures, and what it cannot read
# A function is public if it is `pub` or callable from C. Prints the files that have one.
#
# A clause is `requires {..}` or `ensures {..}`, or has a name before its brace. Of attributes it
# knows those for C, derives of the library's traits, which stand with their item, and `tactic`,
# `inline` and `cold`, which say how a proof is sought and how code is laid out and nothing of what
# is proved, and are dropped.
#
# Quotes stand in three forms and in no other: extern "C", a byte as b'0', a lifetime as 'a. So no
# text can hold what looks like a comment, a brace or another text.

BEGIN {
    byte = "b'([^'\\\\]|\\\\[nt0\\\\']|\\\\x[0-9a-f][0-9a-f])'"
    quoted = "extern \"C\"|" byte "|'[a-z_]+"
    odd = "[\"'`\\\\]"
    tactic = "#!?\\[tactic\\(([A-Za-z0-9_:, -]|\\(|\\))*\\)\\]"
    hint = "#\\[(inline(\\(never\\))?|cold)\\]"
    derives = "(Clone|Copy|Drop|Debug|Default|PartialEq|Eq|PartialOrd|Ord|Hash)"
    stated_trait = "(From|TryFrom|Iterator)"
    known_attribute = "^#\\[(unsafe\\(no_mangle\\)|repr\\(C\\)|derive\\(" derives "(, " derives ")*\\))\\]"
}
FNR == 1 { if (file != "") read_file(); file = FILENAME; rest = "" }
{ rest = rest $0 "\n" }
END { read_file(); keep_what_is_named() }

function fault(words) { print words >faults }

function take(length_of,    s) {
    s = substr(rest, 1, length_of)
    rest = substr(rest, length_of + 1)
    return s
}

# The rest with each comment as the one character \001, and whitespace folded but in literals.
function strip_comments(    s, mark) {
    if (rest ~ /[\001-\010\013-\037\177]|\302\205|\342\200[\213-\217\250-\256]|\342\201[\240-\257]|\357\273\277/)
        fault(file ": has control characters")
    while (match(rest, "//|/\\*|" quoted "|" odd)) {
        s = s take(RSTART - 1)
        mark = take(RLENGTH)
        if (mark == "//") {
            take(index(rest, "\n") - 1)
            s = s "\001"
        } else if (mark == "/*") {
            fault(file ": has a block comment, which is not read")
            rest = ""
        } else {
            if (mark ~ "^" odd "$" || s ~ /[A-Za-z0-9_]$/) fault(file ": has a text that is not read: " mark substr(rest, 1, index(rest, "\n") - 1))
            if (mark !~ /^extern/) gsub(/ /, "\002", mark)
            s = s mark
        }
    }
    rest = s rest
    gsub(/[ \t\n]+/, " ", rest)
}

# Takes the text to its closing ';', or to its closing '}' where that may end it.
function statement(brace_ends,    s, c, depth) {
    while (match(rest, byte "|[][(){};]")) {
        c = RLENGTH > 1 ? "" : substr(rest, RSTART, 1)
        s = s take(RSTART + RLENGTH - 1)
        if (c == "") continue
        if (index("[({", c)) depth++
        else if (c != ";") depth--
        if (!depth && (c == ";" || (c == "}" && brace_ends))) return s
    }
    fault(file ": ends in the middle of: " substr(s rest, 1, 80))
    rest = ""
    return s
}

# Takes a function: its clauses, each on a line of its own, are those before the body's '{'.
function read_function(    head, path, body) {
    while (match(rest, /[{;]/)) {
        if (substr(rest, RSTART, 1) == ";") { head = head take(RSTART); continue }
        head = head take(RSTART - 1)
        if (!match(head, / (requires|ensures)( [a-z_][a-z0-9_]*)? $/)) break
        head = substr(head, 1, RSTART - 1) "\n    " substr(head, RSTART + 1) statement(1)
    }
    body = statement(1)
    gsub(tactic, "", body)
    if (body ~ /#|[^A-Za-z0-9_](fn|mod|impl|trait|extern|macro_rules)[^A-Za-z0-9_]/) fault(file ": an item inside a function: " substr(body, 1, 80))
    sub(/ +$/, "", head)
    sub(/\( /, "(", head)
    sub(/, \) ->/, ") ->", head)
    if (head !~ /^(pub |([^(]* )?extern )/ && attributes !~ /no_mangle|export/) return
    match(head, /fn [A-Za-z0-9_]+/)
    path = module inside[depth_of] substr(head, RSTART + 3, RLENGTH - 3)
    print path "\n    " attributes head >contracts
    kept = kept " " head
    functions++
    if (head !~ /\n    ensures /) fault(path ": a public function without an ensures")
    if (head ~ /requires/) fault(path ": a public function with a requires")
    if (head ~ /\001|--|\{-/) fault(path ": a comment inside a contract")
}

function keep(name, text) {
    gsub(/[ \001]+/, " ", text)
    sub(/ $/, "", text)
    print folder "\t" name "\t" text >texts
    kept = kept " " text
}

# The name of an item, with its kind.
function name_of(text,    name) {
    match(text, /(struct|enum|const|static|type) [A-Za-z0-9_]+/)
    name = substr(text, RSTART, RLENGTH)
    sub(/ /, " " inside[depth_of], name)
    return name
}

# An impl of a trait, whole: its ghost members are the contracts of its functions.
function read_implementation(text,    head) {
    head = substr(text, 1, index(text, "{") - 1)
    gsub(/[ \001]+$/, "", head)
    gsub(hint " ", "", text)
    if (text ~ /#|--|\{-/) fault(file ": an attribute or a comment inside: " head)
    if (text !~ /ghost (from|try_from|next)_gives = /) fault(file ": an impl without a promise: " head)
    if (text ~ /ghost can_/) fault(file ": an impl with a requires: " head)
    keep(head, text)
    functions++
}

function read_item(text) { keep(name_of(text), attributes text) }

# A constant or an alias that is not public is kept where a text that is kept names it.
function read_private(text) {
    privates++
    private_folder[privates] = folder
    private_name[privates] = name_of(text)
    private_text[privates] = attributes text
}
function keep_what_is_named(    i, name, again) {
    do {
        again = 0
        kept = ""
        for (i = 1; i <= privates; i++) {
            name = private_name[i]
            sub(/^.*[: ]/, "", name)
            if (private_text[i] == "" || all_kept !~ "[^A-Za-z0-9_]" name "([^A-Za-z0-9_]|$)") continue
            folder = private_folder[i]
            keep(private_name[i], private_text[i])
            private_text[i] = ""
            again = 1
        }
        all_kept = all_kept kept
    } while (again)
}

# A use line with a group, as lines with one name each. A group stands behind `::`.
function ungrouped(line,    start, before, part, n, i, depth, c, s) {
    start = index(line, "{")
    if (!start) return line ";"
    before = substr(line, 1, start - 1)
    for (i = start; i <= length(line); i++) {
        c = substr(line, i, 1)
        if (c == "{" && !depth++) continue
        if (c == "}" && !--depth) break
        if (c == "," && depth == 1) n++
        else part[n + 0] = part[n + 0] c
    }
    if (before !~ /::$/ || substr(line, i) != "}") { fault(file ": a use line that is not read: " line); return line ";" }
    for (i = 0; i <= n; i++) {
        c = part[i]
        gsub(/^[ \001]+|[ \001]+$/, "", c)
        if (c != "") s = s ungrouped(before c)
    }
    return s
}

# The mod lines, and of the use lines those that bring a name of a text that is kept.
function that_matter(uses,    all, line, n, i, name, s) {
    n = split(uses, line, ";")
    for (i = 1; i < n; i++) all = all ungrouped(line[i])
    n = split(all, line, ";")
    for (i = 1; i < n; i++) {
        name = line[i]
        sub(/^.*[: ]/, "", name)
        if (line[i] !~ /^use / || name !~ /^[A-Za-z0-9_]+$/ || name == "self" || kept ~ "[^A-Za-z0-9_]" name "([^A-Za-z0-9_]|$)") s = s line[i] ";"
    }
    return s
}

function open_block(head) {
    if (head ~ /^impl.* for /) fault(file ": an impl of a trait, which is not read: " substr(head, 1, 80))
    gsub(/<[^<>]*>|^impl|^(pub )?mod|[ {\001]/, "", head)
    inside[depth_of + 1] = inside[depth_of] head "::"
    depth_of++
}

# The module of a file, as `lookup::reading::`.
function module_of(name) {
    sub(/\/src\/((lib|main)\.rt)?/, "/", name)
    sub(/\.rt$/, "/", name)
    gsub(/\//, "::", name)
    return name
}

function read_file(    uses, ghost_uses, pub) {
    pub = "^(pub(\\([a-z: ]*\\))? )?"
    folder = file
    sub(/^crates\//, "", folder)
    module = module_of(folder)
    depth_of = functions = 0
    inside[0] = attributes = kept = ""
    strip_comments()
    while (sub(/^[ \001]+/, "", rest) || rest != "") {
        if (match(rest, "^(" tactic "|" hint ")")) { take(RLENGTH); continue }
        if (match(rest, known_attribute)) { attributes = attributes take(RLENGTH) " "; continue }
        if (rest == "") break
        if (rest ~ pub "(const |unsafe |extern \"C\" )*fn ") read_function()
        else if (rest ~ pub "(struct|enum) ") read_item(statement(1))
        else if (rest ~ /^pub (const|static|type) /) read_item(statement(0))
        else if (rest ~ pub "(const|static|type) ") read_private(statement(0))
        else if (rest ~ /^ghost use /) ghost_uses = ghost_uses inside[depth_of] statement(0)
        else if (rest ~ pub "(use [^;]*|mod [a-z0-9_]+);") uses = uses inside[depth_of] statement(0)
        else if (rest ~ "^impl(<[^<>]*>)? " stated_trait "(<[^{};]*>)? for ") read_implementation(statement(1))
        else if (match(rest, pub "(mod|impl)[ <][^{};]*\\{")) open_block(take(RLENGTH))
        else if (depth_of && rest ~ /^\}/) { take(1); depth_of-- }
        else { fault(file ": cannot read: " substr(rest, 1, 80)); return }
        attributes = ""
    }
    if (depth_of) fault(file ": its braces do not match")
    all_kept = all_kept kept
    uses = that_matter(uses)
    if (uses != "") keep("use lines", uses)
    if (!functions) return
    keep("ghost use lines", ghost_uses)
    print file
}
