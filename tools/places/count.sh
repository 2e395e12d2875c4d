#!/bin/bash
# The counts of docs/DESIGN-PASS.md: `count.sh TREE` prints a line `POINT name count` for each. No check is run.
H=$(cd "$(dirname "$0")" && pwd); cd "${1:-.}" || exit 1
S=(crates/*/src/*.rt)
lines() { printf '%s %s %d\n' "$1" "$2" "$(cat "${S[@]}" | grep -vE '^\s*//' | grep -cE "$3")"; }
words() { printf '%s %s %d\n' "$1" "$2" "$(cat "${S[@]}" | grep -vE '^\s*//' | grep -oE "$3" | wc -l)"; }
only() { printf '%s %s %d\n' "$1" "$2" "$(cat crates/$3 | grep -vE '^\s*//' | grep -cE "$4")"; }

lines 1 own_enums '^\s*(pub(\(crate\))? )?enum '
lines 1 uses_of_the_question_mark '\?[;)]|\?$'
lines 1 kind_and_refusal_constants 'const (DONE|(REFUSED|PROFILE|KIND|TARGET)_\w+|LAST_(KIND|PROFILE)|RANDOM|ATTRIBUTES|TEXT|KINDS): u8 = [0-9]+;'
lines 1 all_u8_constants 'const \w+: u8 = [0-9]+;'
lines 1 status_fields '^\s*pub status: u8'
lines 1 status_tests '\bstatus [!=]= DONE'
lines 1 refusal_functions 'fn (\w+_refusal|refuse_if|refused|judge)\('
words 1 later_parameters '\blater: u8'
words 1 number_for_a_kind '\b(profile|kind|target): u8'
lines 1 sentinels_and_flags 'NO_CELL: |fn nothing|marks\.len\(\) == 0|let mut no_marks|\.character == 1|pub empty: bool|pub write: u8|fn side\('

lines 2 twins_choose 'fn (choose|choose_address|refuse_if|byte_after|side)\('
lines 2 twins_bit 'fn (bit|is_set)\('
lines 2 twins_refusals 'pub fn (mode|counter|kind|profile|trace|line|column|memory|output)_refusal\('
lines 2 twins_painters 'fn (paint_frame|paint_frame_mapped|paint_line|paint_line_mapped|paint_unmarked|paint_marked)\('
lines 2 twins_places 'fn to_(controller|unassigned|basic_rom|overlay_ram|boot_eprom)\('
only 2 twins_figures 'figures/src/*.rt' 'fn (frame_48k|frame_16k|image_48k|image_16k|digest_numbers|change\(|digest\(bytes|fill\(image)'
only 2 twins_listing 'listing/src/*.rt' 'fn (append_byte|append_count|write_closing|write_refusal)\b'
only 2 twins_testcard 'testcard/src/*.rt' 'fn (text_alternate|hires_alternate)\('
only 2 twin_types 'bus/src/*.rt' 'struct (Decoded|Place|Access|Written) '

lines 3 while_and_loop '^\s*(while|loop)\b'
lines 3 steps_of_an_index '^\s*\w+ ([+-]= [0-9]+|= \w+ [+-] 1);'
lines 3 for_loops '^\s*for\b'
printf '3 measures %d\n' "$(cat crates/*/proofs/*/Invariants.antt crates/*/proofs/*/*/Invariants.antt crates/*/proofs/*/*/*/Invariants.antt 2>/dev/null | grep -c '^abbrev pub decreases-')"

lines 4 hand_min_max_abs_digits_bits 'fn (lower|higher|distance|signed_field|hex_digit|address\(out|ones|changed|bytes_of|digest_number\(|wide)\b'
lines 4 fields_copied_one_by_one '^\s*(\w+): \w+\.\1,$'
lines 4 functions_report 'fn report_\w+\('
words 4 field_and_text_calls '(report::(signed_)?field|report::text)\('
lines 4 impls_of_traits '^\s*impl\b.* for '
lines 4 derives_beyond_clone_copy_drop '#\[derive\(.*(PartialEq|Eq|Ord|Default|Debug|Hash)'
words 4 casts_by_as ' as (u8|u16|u32|u64|usize|isize|i8|i64)\b'
words 4 uses_of_from '\b(u8|u16|u32|u64|usize|isize|i64)::(from|try_from)\('

python3 "$H/contracts.py" | tail -1 | sed -E 's/clauses ([0-9]+) in ([0-9]+) functions; groups ([0-9]+)/5 clauses_in_3_functions \1\n5 functions_with_such_a_clause \2\n5 parameter_groups_in_3_functions \3/'
lines 5 ghost_fields '^\s*(pub )?ghost \w+: \{'

only 6 text_with_its_end 'listing/src/*.rt' 'text: &mut \[u8\], at: usize|&text\[\.\.size\]'
only 6 list_with_its_count 'compare/src/*.rt' '(before|count): usize,?$|cells: &mut \[u16\], count: usize|pub cells: usize'
only 6 count_beside_cycles 'trace/src/*.rt' 'pub count: usize|judged\.count'
words 6 parallel_halves '\[LINES( \+ number|\.\.)\]'
lines 6 text_as_bytes '(name|part|word): &\[u8\]'

lines 7 switch_on_a_step 'if marks\.len\(\) == 0|if profile == PROFILE_16K'
words 7 closures '\|[a-z_&, ()]*\| '
words 7 pointers_and_dyn '\bdyn |\bimpl Fn|: fn\(|Box<'

python3 "$H/answers.py" | tail -1 | sed -E 's/files ([0-9]+), answers ([0-9]+), simple ([0-9]+), repeated ([0-9]+), long lines ([0-9]+) of ([0-9]+) kinds/8 answer_files \1\n8 answers \2\n8 answers_the_check_may_find \3\n8 answers_that_repeat \4\n8 long_lines_3_times \5\n8 kinds_of_long_lines \6/'
python3 "$H/unused.py" | tail -1 | sed -E 's/unused ([0-9]+) of ([0-9]+) lemmas in ([0-9]+) files/8 unused_lemmas \1\n8 lemmas \2\n8 lemma_files \3/'
printf '8 lemmas_of_the_library %d\n' "$(cat crates/machine/proofs/{Numbers,Lists,Choice}.antt | grep -cE '^pub (no_length|clash|flat_map_append|map_at|cond_all) :')"
