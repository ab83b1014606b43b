#!/bin/sh
# Counts, over src/ of every crate, the lines in which docs/DESIGN-PASS.md looked for forms of the older language. Run it at the top of a checkout.
count() {
    printf '%-58s %s\n' "$1" "$(grep -rnE "$2" crates/*/src --include='*.rt' | grep -vE "${3:-^$}" | wc -l)"
}
count '1 enums' '^ *(pub )?(\(crate\) )?enum '
count '1 kinds, heads and payloads as numbers' '\b(kind|head|payload): u32'
count '1 flags in structs and parameters' '^ +(pub )?[a-z_]+: bool,'
count '3 loops' '^ *(.[a-z]+: )?(while|loop|for) ' 'format_args'
count '4 results and options taken apart and put together' '(Ok\([a-z_]+\) => Ok|Err\([a-z_]+\) => Err|None => (false|None|0|Ok)|Err\(_\) => )'
count '4 types that derive copying alone' '#\[derive\(Clone, Copy\)\]'
count '5 a sound table of frames asked for or kept' '(requires|ghost ok).*Sound'
count '5 a table within its rows or limit asked for or kept' 'requires.*(Fits|places)|ghost within_limits'
count '5 the meaning of a graph, read off its two fields' 'R\.FrameRule\.means (self|graph|result)'
count '5 the size of a graph, read off its records' 'size (self|graph)\.now\.records'
count '5 a law for every limit, room, places and scratch' '\(limit : ℕ\) \(room : Room\)'
count '5 words with a flag beside them' 'ragged: bool'
count '5 a text handed from function to function (listing)' 'out: &mut String' '/lines/'
count '5 a slice with a base beside it' 'base: usize'
count '5 the size of a forest (walk_bench)' 'size: u32'
count '5 tables lent by hand (tests)' 'let mut enodes = ' 'src/run|src/main'
count '6 lengths, places and arrays in fields and parameters' '(len|count|filled|at|base): usize|\[[A-Za-z_]+(::default\(\))?; [0-9]+\]' 'tests'
count '7 switches, trait objects and function pointers' 'match \*?(call|kind|expl|self|\(kind)|dyn |fn\(' 'tests'
printf '%-58s %s\n' '8 proof files' "$(find crates -path '*/proofs/*' -name '*.antt' ! -path '*/out/*' | wc -l)"
printf '%-58s %s\n' '8 answers and invariants among them' "$(find crates -path '*/proofs/*' \( -name Answers.antt -o -name Invariants.antt \) ! -path '*/out/*' | wc -l)"
printf '%-58s %s\n' '8 lines of proof' "$(find crates -path '*/proofs/*' -name '*.antt' ! -path '*/out/*' -exec cat {} + | wc -l)"
