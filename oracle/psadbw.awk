# Counts psadbw in a disassembly, by function, among the functions whose name matches `code`. Fails
# below `least`, and where such a function reads fewer than 8 bytes at a time: then psadbw is there
# and a row is still taken apart.

/>:$/ {
    name = $0
    sub(/^[^<]*</, "", name)
    sub(/>:$/, "", name)
}

name ~ code && /[ \t]v?psadbw[ \t]/ {
    count[name]++
    all++
}

name ~ code && (/[ \t]movz[bw]/ || /[ \t]v?movd +[^%]*\(/) {
    small[name]++
}

END {
    for (name in count) {
        print "psadbw: " count[name] " in " name
        if (small[name]) {
            print "psadbw: " name " reads " small[name] " times fewer than 8 bytes"
            exit 1
        }
    }
    if (all + 0 < least) {
        print "psadbw: " all + 0 " in the search, wanted at least " least
        exit 1
    }
}
