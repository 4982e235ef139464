#!/bin/sh
# tools/design/count.sh COMMIT [list]: the lines of crates/*/src, tests left out, in which the design pass looks for places.
# Each pattern takes in more than the places meant; which lines are places, docs/DESIGN-PASS.md says.
at=${1:-HEAD}
lines() { git grep -nE "$1" "$at" -- 'crates/*/src/*.rt' ':!crates/*/src/tests.rt' | sed "s/^$at://"; }
count() { printf '%-58s %s\n' "$1" "$(lines "$2" | wc -l)"; [ "$list" = list ] && lines "$2"; }
list=$2
count '1a own enums' '^ *(pub(\(crate\))? )?enum '
count '1b flags in fields, and as results of calls that change' '^ +(pub(\(crate\))? )?[a-z_]+: bool,|&mut .*-> bool|Result<bool'
count '1c numbers for kinds and refusals' 'Result<.*, (u8|u16|u32|u64|usize)>|fn (number|[a-z]+_code|event_of)\(|(kind|layer|linked): u32'
count '1d None handed on by hand' 'return None;|None => None'
count '2  functions of names that stand in several crates' 'fn (push|pop|as_slice|clear|copy_from|new|number|layer|place|layer_name|style_of|is_empty|len|has_room|highlight|trim_end|trim_start|trimmed)\b'
count '3  loops' '^ *(while |loop |for .* in )'
count '4a equality, copies and conversions by hand' 'fn (is_same|is_word|copy_from|clone|from|host_answer|layer_code|layer_name|event_of|toml_style|text_of|read_name|command|eq|cmp)\b'
count '4b writers' 'fn write_[a-z_]+\('
count '5a parameters that travel together' '^ +(table|tables|addresses|board|format): &?'
count '5b a fact beside what a call does' 'ensures kept|ensures refused|OnOk result \((string_bytes )?out\.new'
count '5c facts of lists with memory taken once' 'ghost (room|few|held|[a-z]+_room|[a-z]+_held|[a-z]+_fit|places|size|inside):'
count '6  arrays, and numbers of places, lengths and starts' '^ +(pub(\(crate\))? )?[a-z_]+: \[[A-Za-z0-9]+; [A-Z_0-9]+\],|^ +(pub(\(crate\))? )?(depth|start|length|margin|count|rows_most|bytes_most): usize,'
count '7  parameters that choose a step' '(source|breaks|kind|wanted|mode): (Source|Breaks|Kind|bool|Mode)[,)]'
printf '%-58s %s\n' '8  files of answers' "$(git ls-tree -r --name-only "$at" | grep -c 'proofs/.*/Answers.antt')"
printf '%-58s %s\n' '8  lines of proofs/' "$(git ls-tree -r --name-only "$at" | grep 'crates/.*/proofs/' | while read -r f; do git show "$at:$f"; done | wc -l)"
