# Whether docs/RULES.md and docs/PROMISES.md name only what is in the tree, and all that they have
# to name. `make rules` hands over, in any order, the files of crates, what else cites rules, and
# the two pages.
#
# Of the pages: a file below crates/; names in backticks before such a file in brackets, which it
# has to define; crate::function; hencouch_function; crate/edit; any other single name in backticks,
# which has to be a name of the tree. Every edit has to be cited, and every public function has to
# stand in docs/PROMISES.md. Of all other files: "rule S1", "rules S1 to S3", "rules S1, S4".

function wrong(where, text) {
    print where ": " text > "/dev/stderr"
    faults++
}

# Calls for each match of a pattern are made by the callers' loops: the rest of `line` after a match.
function next_match(pattern) {
    if (!match(line, pattern))
        return 0
    found = substr(line, RSTART, RLENGTH)
    before = RSTART > 1 ? substr(line, RSTART - 1, 1) : " "
    line = substr(line, RSTART + RLENGTH)
    after = line == "" ? " " : substr(line, 1, 1)
    return 1
}

FNR == 1 {
    files[FILENAME] = 1
    page = FILENAME == "docs/RULES.md" || FILENAME == "docs/PROMISES.md"
    split(FILENAME, part, "/")
    crate = part[1] == "crates" ? part[2] : ""
    if (crate != "") {
        crates[crate] = 1
        names[crate] = 1
    }
    kind = crate == "" ? "" : part[3]
    if (kind == "must-fail") {
        name = part[4]
        sub(/\.edit$/, "", name)
        edits[crate "/" name] = FILENAME
    }
    module = ""
    if (kind == "src") {
        module = part[4]
        sub(/\.rt$/, "", module)
        if (module == "lib" || module == "main")
            module = ""
    }
}

kind == "specs" || kind == "proofs" {
    line = $0
    sub(/^ +/, "", line)
    if (line ~ /^(pub|unfoldable|abbrev) /) {
        while (sub(/^(pub|unfoldable|abbrev|record|data) /, "", line))
            ;
        split(line, word, /[ ({:]/)
        defined[FILENAME " " word[1]] = 1
        names[word[1]] = 1
    } else if (kind == "proofs" && line ~ /^[^ ]+ : /) {
        split(line, word, " ")
        defined[FILENAME " " word[1]] = 1
        names[word[1]] = 1
    }
}

# A name of the Rust, as a comment of a definition has it.
kind == "specs" && /^ *--.*`/ {
    line = $0
    while (next_match("`[A-Za-z_0-9]+`"))
        names[substr(found, 2, length(found) - 2)] = 1
}

kind == "src" {
    if (match($0, /^pub mod [a-z_0-9]+/))
        open_module[crate "::" substr($0, 9, RLENGTH - 8)] = 1
    if (match($0, /^(pub )?(extern "C" )?fn [a-z_0-9]+/)) {
        name = substr($0, RSTART, RLENGTH)
        sub(/.* /, "", name)
        defined[FILENAME " " name] = 1
        # An entry has one row, under the name that C links it by.
        if ($0 ~ /^pub / && name ~ /^hencouch_/)
            entries[name] = 1
        else if ($0 ~ /^pub fn/)
            functions[crate (module == "" ? "" : "::" module) "::" name] = module == "" ? "" : crate "::" module
    }
    line = $0
    while (next_match("[A-Za-z_][A-Za-z_0-9]*"))
        names[found] = 1
}

part[1] == "oracle" && match($0, /(fn|struct|enum|type) [A-Za-z_0-9]+/) {
    name = substr($0, RSTART, RLENGTH)
    sub(/.* /, "", name)
    names[name] = 1
}

FILENAME == "Makefile" {
    line = $0
    while (next_match("[A-Za-z_-]+"))
        names[found] = 1
}

FILENAME == "docs/RULES.md" && match($0, /^- \*\*[A-Z][0-9]+\*\*/) {
    name = substr($0, 5, RLENGTH - 6)
    if (name in rules)
        wrong(FILENAME ":" FNR, "rule " name " stands twice")
    rules[name] = 1
}

page { text[FILENAME ":" FNR] = $0 }

!page && /[Rr]ules? [A-Z][0-9]/ {
    line = $0
    while (next_match("[Rr]ules? [A-Z][0-9]+((, | to | and )[A-Z][0-9]+)*"))
        rule_cites[FILENAME ":" FNR] = rule_cites[FILENAME ":" FNR] " " found
}

function check_files(where) {
    line = text[where]
    while (next_match("[a-z_]+/(specs|proofs|src)/[A-Za-z_/+]*\\.(antt|rt)"))
        if (!(("crates/" found) in files))
            wrong(where, "there is no crates/" found)
}

function check_defined(where,   in_file, list, i, n, one) {
    line = text[where]
    while (next_match("(`[^`]+`, )*`[^`]+` \\([a-z_]+/(specs|proofs|src)/[A-Za-z_/]*\\.(antt|rt)\\)")) {
        in_file = found
        sub(/.*\(/, "", in_file)
        sub(/\)$/, "", in_file)
        n = split(found, list, "`")
        for (i = 2; i <= n; i += 2) {
            one = "crates/" in_file " " list[i]
            if (!(one in defined) && ("crates/" in_file) in files)
                wrong(where, in_file " has no " list[i])
        }
    }
}

function check_functions(where) {
    line = text[where]
    while (next_match("[a-z_]+(::[a-z_0-9]+)+")) {
        split(found, part, "::")
        if (part[1] in crates && !(found in functions))
            wrong(where, "there is no function " found)
        cited[FILENAME_OF[where] " " found] = 1
    }
    line = text[where]
    while (next_match("hencouch_[a-z_0-9]+")) {
        if (!(found in entries) && !(found in crates))
            wrong(where, "there is no entry " found)
        cited[FILENAME_OF[where] " " found] = 1
    }
}

function check_edits(where) {
    line = text[where]
    while (next_match("[a-z_]+/[a-z_0-9]+")) {
        split(found, part, "/")
        if (before == "/" || after == "/" || after == "." || !(part[1] in crates) || part[2] ~ /^(specs|proofs|src|data)$/)
            continue
        if (!(found in edits))
            wrong(where, "there is no edit " found)
        tried[found] = 1
    }
}

function check_names(where) {
    line = text[where]
    while (next_match("`[A-Za-z][A-Za-z_0-9-]*`")) {
        found = substr(found, 2, length(found) - 2)
        if (!(found in names))
            wrong(where, "nothing is named " found)
    }
}

END {
    for (where in text) {
        FILENAME_OF[where] = where
        sub(/:.*/, "", FILENAME_OF[where])
        check_files(where)
        check_defined(where)
        check_functions(where)
        check_edits(where)
        check_names(where)
    }
    for (one in edits)
        if (!(one in tried))
            wrong(edits[one], "neither page cites it")
    for (one in functions)
        if ((functions[one] == "" || functions[one] in open_module) && !(("docs/PROMISES.md " one) in cited))
            wrong("docs/PROMISES.md", "has no row for " one)
    for (one in entries)
        if (!(("docs/PROMISES.md " one) in cited))
            wrong("docs/PROMISES.md", "has no row for " one)
    for (where in rule_cites) {
        line = rule_cites[where]
        while (next_match("[A-Z][0-9]+"))
            if (!(found in rules))
                wrong(where, "there is no rule " found)
    }
    if (faults)
        exit 1
}
