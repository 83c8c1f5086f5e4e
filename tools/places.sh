#!/usr/bin/env bash
# How many places of older forms crates/*/src has, point by point: docs/DESIGN-PASS.md has the counts of before and after.
# A pattern counts lines; run at the top of the checkout, or with another checkout as the argument.
set -u
cd "${1:-.}" || exit 1
lines() { # POINT NAME PATTERN [NOT]
	local n
	n=$(grep -rhE "$3" crates/*/src --include='*.rt' | grep -vcE "${4:-^$}")
	printf '%-3s %-58s %6s\n' "$1" "$2" "$n"
}
files() { # POINT NAME FILE
	printf '%-3s %-58s %6s\n' "$1" "$2" "$(find crates/*/proofs -name "$3" 2>/dev/null | wc -l)"
}
lines 1 'enums of the shape of a Result' '^pub enum (Reply|Fetched)'
lines 1 'structs of a reply and a value' '^    pub reply: Reply'
lines 1 'flags beside a value' '^    (pub )?(more|written): bool'
lines 1 'replies handed on by hand' 'Reply::(Done|Refused)'
lines 1 'lists of refusals folded by functions' 'refusal::(and_then|unless)\('
lines 1 'refusals told by a number in a match' 'Refusal::[A-Za-z]+ => [0-9]+'
lines 1 'numbers for kinds among parameters and fields' '^    (pub )?(mode|scan|vectors|rounding): u(8|32),'
lines 2 'functions whose name tells a size or a type' 'fn (\w+_(8|16|four|eight|sixteen|byte|bytes|word|words|long|longs|signed|signeds|counts?|activity|sample|places)|(bytes|words|signeds|narrow|wide)(_\w+)?|clear_\w+)\(' 'hencouch_|pub fn (search_|signed|word|byte)'
lines 3 'while loops' '^ *while '
lines 3 'for loops over an index' '^ *for \w+ in 0\.\.'
lines 4 'functions that widen, narrow or cut a number' 'fn (wide|wide8|wide32|number|side|byte|two_bytes|joined|two_words|from_bits|digit|less|rest|one_less|excess|smaller|nearest|to_byte|one_unless_zero|part|band_rows|shifted|lowered|moved|with_sign|toward_zero)\('
lines 4 'tests by functions of refusal and basis' 'refusal::(both|either|between|is_product)\(|basis::(clamp|magnitude)\('
lines 4 'plain types with no derive but Clone and Copy' '^#\[derive\(Clone, Copy\)\]'
lines 5 'samples and their geometry side by side' '^    (samples|reference|ref_y|reference_y): &\[u8\],'
lines 5 'three planes, predictions or event areas side by side' '^    (\w*cb|runs|zero_runs): &'
lines 5 'contracts that tell the same record of facts' 'requires.*\b(Held|Ready|SoughtReady|Grids|PassNeeds|BlockNeeds|FreeStart|Predictable|Ringed|Judged|RowReady|PlaceReady|TapsFit|Within|between 1 7|head_reply) '
lines 6 'buffers with a length, parallel arrays' 'bytes: \[u8; 198\]|(equal|refused): \[u64|sums: \[u32; 4\]'
lines 7 'switches on which step to run' '^ *match (mode|motion|fraction|fractions|entry|w|stored::entry\(call\)|settings\.mode) \{'
files 8 'answers' Answers.antt
files 8 'invariants' Invariants.antt
printf '%-3s %-58s %6s\n' 8 'lines of proofs' "$(find crates/*/proofs -name '*.antt' -exec cat {} + | wc -l)"
