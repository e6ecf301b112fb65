# Reads the files that standard input names and, one after another, all that these use, and
# prints FILE, NAME, TEXT between tabs for each definition of the files of antt, with comments
# dropped and whitespace folded. A definition is a paragraph; the use and mod lines of a file
# are one entry. Faults go to the file `faults`. `listed` has the crates of the repository.
#
# A module of a crate is named by its whole path, `Rattle.CRATE.specs.FILE` or `.proofs.`; `Rattle`
# stands nowhere else, so that no module comes in under another name.

BEGIN {
    count = split(listed, word, " ")
    for (i = 1; i <= count; i++) is_crate[word[i]] = 1
    step = "\\.[^] \t.(){};,@\"[]+"
    module_path = "Rattle[^] \t.(){};,@\"[]*(" step ")*"
}
{ add($0) }
END {
    for (at = 1; at <= files; at++)
        if (file[at] ~ /\.antt$/) read_antt(file[at])
        else while ((getline line <file[at]) > 0) if (line !~ /^ *\/\//) follow(file[at], line)
}

function fault(words) { print words >faults }
function add(f) { if (!(f in known)) { known[f] = 1; file[++files] = f } }
function exists(f,    line, answer) { answer = (getline line <f) >= 0; close(f); return answer }

# Whether a line of the proofs of crate pins names proofs of a crate of the repository: theorems,
# which the check proves, so that their files need not be read.
function names_theorems(f, line,    word) {
    if (f !~ /^crates\/pins\/proofs\//) return 0
    while (match(line, /Rattle\.[A-Za-z0-9_]+\.proofs/)) {
        split(substr(line, RSTART, RLENGTH), word, ".")
        if (word[2] in is_crate) return 1
        line = substr(line, RSTART + RLENGTH)
    }
    return 0
}

# Whether a module has modules below it, which could be named through it.
function has_children(f,    line) {
    if (!(f in children)) {
        children[f] = 0
        while ((getline line <f) > 0) if (line ~ /^(pub )?mod /) children[f] = 1
        close(f)
    }
    return children[f]
}

# Adds the file of each module that a line names, and those of the modules above it.
function follow(from, line,    name, before, word, n, i, f, found) {
    if (line ~ /«Rattle/) fault(from ": names Rattle in quotes")
    while (match(line, module_path)) {
        name = substr(line, RSTART, RLENGTH)
        before = substr(line, RSTART - 1, 1)
        line = substr(line, RSTART + RLENGTH)
        n = split(name, word, ".")
        if (word[1] ~ /^Rattle[A-Za-z0-9_]/ || before ~ /[A-Za-z0-9_]/) continue # another name
        if (word[1] != "Rattle" || word[2] !~ /^[A-Za-z0-9_]+$/) { fault(from ": uses " name ", which is no path of a module"); continue }
        if (!(word[2] in is_crate)) continue
        if (word[3] == "specs" && word[4] == "declared" && !exists("crates/" word[2] "/specs/declared.antt") && !exists("crates/" word[2] "/specs/declared/Lib.antt")) {
            if (word[5] == "TheConstants" || word[5] == "") fault(from ": uses " name ", of which nobody knows what it brings")
            continue
        }
        f = "crates/" word[2] "/" word[3]
        found = 0
        for (i = 4; i <= n && exists(f "/" word[i] ".antt"); i++) {
            f = f "/" word[i]
            if (!names_theorems(from, name)) add(f ".antt")
            found = 1
        }
        if (!found || f ~ /\/specs\/code$/) fault(from ": uses " name ", which is no file")
        else if (i > n && has_children(f ".antt")) fault(from ": uses " name ", which has modules below it: name these")
    }
}

# The name that a line declares: what follows the words before a name.
function declared(line,    word, n, i) {
    n = split(line, word, " ")
    for (i = 1; i < n && word[i] ~ /^(unfoldable|abbrev|pub|record|data|mutual|module|infix[lr]?|[0-9]+)$/; i++) continue
    return word[i]
}

# A use or mod line. A module below can be named with no use line.
function read_use(f, line,    word, n, i) {
    uses = uses line ";"
    if (sub(/^(pub )?mod /, "", line)) { below = below " " line; return }
    whole = whole line " "
    if (!names_theorems(f, line)) return
    if (line !~ /\{.*\}/) fault(f ": a use line that names no theorem: " line)
    gsub(/^[^{]*\{|\}.*$/, "", line)
    n = split(line, word, /, */)
    for (i = 1; i <= n; i++) {
        sub(/^.* as /, "", word[i])
        sub(/^.*\./, "", word[i])
        theorem[f, word[i]] = 1
    }
}

# No type of crate pins may name what it takes from proofs: nobody reads it there.
function read_type(f, line, indent,    first, word, n, i) {
    first = declared(line)
    if (indent <= base && first != "unfolding" && first != subject) {
        subject = first
        defines = line ~ /^(pub )?(abbrev|unfoldable|record|data|module)/
        in_type = 1
    } else if (indent <= base && !defines) in_type = 0
    n = in_type ? split(line, word, /[] .(){};,@[]+/) : 0
    for (i = 1; i <= n; i++)
        if ((f, word[i]) in theorem) fault(f ": the type of " subject " names " word[i] ", which stands in a proof")
    if (names_theorems(f, line)) fault(f ": " subject " names a proof by its path")
}

# A line of a paragraph. An indented paragraph belongs to the section above it.
function read_line(f, line, indent) {
    whole = whole line " "
    if (text == "") { base = indent; text = indent ? section : "" }
    if (base < 0) base = indent
    text = text (indent <= base ? ";" : " ") line
    if (name == "" && line !~ /^module /) name = declared(line)
    read_type(f, line, indent)
    if (indent) return
    section = line ~ /^module / ? line : ""
    if (section != "") base = -1
}

function entry(f) {
    sub(/^crates\//, "", f)
    if (name == "") name = "module"
    if (text != "") print f "\t" name (++times[f, name] > 1 ? " (" times[f, name] ")" : "") "\t" text
    text = name = subject = ""
}

function read_antt(f,    line, in_uses, indent, word, n, i) {
    if (!exists(f)) { fault(f ": is not there"); return }
    add(substr(f, 1, match(f, /(specs|proofs)\//) + RLENGTH - 1) "Lib.antt")
    uses = section = below = whole = ""
    while ((getline line <f) > 0) {
        if (line ~ /[\001-\010\013-\037\177"]|\{-|-\}/)
            fault(f ": has a block comment, a quoted text or a control character, which are not read")
        if (line ~ /^[ \t]*$/) { entry(f); in_uses = 0; continue }
        if (line !~ /«/ && match(line, /(^|[ \t])--([ \t]|$)/)) line = substr(line, 1, RSTART - 1)
        if (line ~ /^[ \t]*$/) continue
        follow(f, line)
        match(line, /^[ \t]*/)
        indent = RLENGTH
        gsub(/[ \t]+/, " ", line)
        gsub(/^ | $/, "", line)
        if (!indent) in_uses = line ~ /^(unfoldable )?(pub )?(use|mod) /
        if (in_uses) read_use(f, line)
        else read_line(f, line, indent)
    }
    close(f)
    entry(f)
    name = "use lines"
    text = uses
    entry(f)
    n = split(below, word, " ")
    for (i = 1; i <= n; i++) add_below(substr(f, 1, length(f) - 5), word[i])
}

# Adds the file of a module below, and of those below it, where the text of the file names them.
function add_below(folder, name,    text, path, word, n, i) {
    text = whole
    while (match(text, name "(" step ")+")) {
        path = substr(text, RSTART, RLENGTH)
        text = substr(text, RSTART + RLENGTH)
        n = split(path, word, ".")
        path = folder
        for (i = 1; i <= n && (i == 1 || exists(path "/" word[i] ".antt")); i++) {
            path = path "/" word[i]
            add(path ".antt")
        }
    }
    if (index(whole, name ".")) add(folder "/" name ".antt")
}
