#!/bin/sh
# cut.sh FILE NAME...: the parts of a Rust file with these names, unchanged, each of which has to be
# there once. A function, a struct and an impl block, whose name is impl:TYPE, end with their brace;
# a constant and a type's other name end with their line. TYPE::FUNCTION is one function of an impl
# block, and is written as a block of its own.
set -e
file=$1
shift
for name in "$@"; do
    one=${name#*::}
    case $name in
        *::*)
            part=$(sed -n -e "/^    [a-z()]* *fn $one[(<]/,/^    }/p" "$file")
            end='^    }' ;;
        *)
            part=$(sed -n -e "/^[a-z()]* *fn $name[(<]/,/^}/p" \
                -e "/^[a-z()]* *struct $name[ <]/,/^}/p" \
                -e "/^${name%%:*}[^ ]* ${name#*:}[ <]/,/^}/p" \
                -e "/^[a-z()]* *const $name:/p" -e "/^[a-z()]* *type $name /p" "$file")
            end='^}\|^[a-z()]* *const \|^[a-z()]* *type ' ;;
    esac
    if [ "$(printf '%s\n' "$part" | grep -c "$end")" != 1 ]; then
        echo "$name is not in $file once" >&2
        exit 1
    fi
    case $name in
        *::*) printf 'impl %s {\n%s\n}\n' "${name%%::*}" "$part" ;;
        *) printf '%s\n' "$part" ;;
    esac
done
