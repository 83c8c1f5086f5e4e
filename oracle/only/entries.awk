# Prints one file of Rattle: the functions ENTRIES of the files read, each with the functions and types
# that it names and without contracts, and what they use of CRATES. What stands in two files is taken
# from the first.

FNR == 1 { name = "" }

# One line for each name that a line brings.
/^use / {
    crate = $2
    sub(/(::|;).*/, "", crate)
    path = $0
    sub(/^use /, "", path)
    sub(/;.*/, "", path)
    brought = split(path, parts, /[{},]+ */)
    for (k = 1; k <= brought; k++) {
        one = brought == 1 ? parts[1] : k == 1 || parts[k] == "" ? "" : parts[1] parts[k]
        line = "use " one ";"
        if (one != "" && !(line in used)) { used[line] = crate; uses[++use_count] = line }
    }
}

/^#\[/ { mark = $0; next }

/^(pub )?((extern "C" )?fn|const|struct|enum) / {
    name = $0
    sub(/^.*(fn|const|struct|enum) /, "", name)
    sub(/[^A-Za-z0-9_].*/, "", name)
    if (name in text) name = "/" FILENAME "/" name
    else names[++count] = name
    text[name] = mark == "" ? "" : mark "\n"
    mark = ""
    contract = 0
}

name != "" {
    if ($0 ~ /^    (ensures|requires)/) contract = 1
    if ($0 ~ /^\{/) contract = 0
    line = $0
    gsub(/(crate|areas|predicting)::([a-z_]+::)?/, "", line)
    # the library's entries are exported by another crate, and here by this one
    sub(/^pub fn hencouch_/, "#[unsafe(no_mangle)]\npub extern \"C\" fn hencouch_", line)
    if (!contract) text[name] = text[name] line "\n"
    if ($0 ~ /^\}/ || $0 ~ /^[^ ].*;$/) name = ""
}

function take(name, k, other) {
    if (taken[name]++) return
    for (k = 1; k <= count; k++) {
        other = names[k]
        if (other != name && text[name] ~ "(^|[^A-Za-z0-9_:])" other "([^A-Za-z0-9_:]|$)") take(other)
    }
}

END {
    wanted_count = split(ENVIRON["ENTRIES"], wanted, " ")
    for (k = 1; k <= wanted_count; k++) {
        entry = "hencouch_" wanted[k]
        if (!(entry in text)) { print entry " is no entry of the library" > "/dev/stderr"; exit 1 }
        take(entry)
    }
    split(ENVIRON["CRATES"], list, " ")
    for (k in list) crates[list[k]] = 1
    for (k = 1; k <= use_count; k++) {
        short = uses[k]
        sub(/;.*/, "", short)
        sub(/^.*::/, "", short)
        needed = 0
        for (n in taken) if (text[n] ~ "(^|[^A-Za-z_])" short "([^A-Za-z_]|$)") needed = 1
        if (needed && (used[uses[k]] in crates)) print uses[k]
    }
    for (k = 1; k <= count; k++) if (taken[names[k]]) printf "\n%s", text[names[k]]
}
