# mutants-sources.sh: the wrong rules of the two current sources (document 02, A5); mutants reads it.
# shellcheck shell=bash disable=SC2154
code='return \(code & 3\) - 1;'
bits='int64_t bits = configuration >> .*'
pair='int64_t m1 = multiplier\(bits\), m3 = multiplier\(bits >> 2\);'
halved='m1 != 0 && m3 != 0\}'
made='return clipped\(halved_down\((.*), source->halvings\)\);'
value='source_value\(&by, stretch->value\[S1\]\[k\], stretch->value\[S3\]\[k\]\)'
ends='^    interval->samples \+= .*'
input='take_input\(card, before\[input\], raw\[input\]'
each='for (size_t k = 0; k < count; k++)'
far='is_outside(halved_down(source[which].m1 * stretch.value[S1][k] + source[which].m3 * stretch.value[S3][k], source[which].halvings))'
is_ib='sums == \&module->interval.source[IB]'
ia='\&module->interval.source[IA]'
ib='\&module->interval.source[IB]'
follow='^    accumulate\(&module->interval,'
squelch='root < module->card.field\[SQUELCH\]'
refuses='if \(slice\[S1\].count != count \|\| slice\[S3\].count != count \|\| count > BLOCK_MOST\)'
judges='if \(!in_range\(&slice\[V\]\) \|\| !in_range\(&slice\[S1\]\) \|\| !in_range\(&slice\[S3\]\)\)'
answered='closed->clipped, '

# Codes, and the bits that they stand in
for wrong in '00 0' '00 1' '00 2' '00 -2' '01 -1' '01 1' '01 2' '10 -1' '10 0' '10 2' '11 -1' '11 0' '11 1' '11 3' '11 4' '11 -2'; do
    mutant "sources: code ${wrong/ / is }" sources.c "s/$code/return (code \& 3) == $((2#${wrong% *})) ? ${wrong#* } : (code \& 3) - 1;/"
done
mutant 'sources: codes as numbers' sources.c "s/$code/return code \& 3;/"
mutant 'sources: codes as signed numbers' sources.c "s/$code/return (code \& 1) - (code \& 2);/"
mutant 'sources: codes from 2 down to -1' sources.c "s/$code/return 2 - (code \& 3);/"
mutant 'sources: the bits of a code exchanged' sources.c "s/$code/return ((code \& 1) << 1 | (code >> 1 \& 1)) - 1;/"
mutant 'sources: three bits a code' sources.c "s/$code/return (code \& 7) - 1;/"
mutant 'sources: M1 and M3 exchanged' sources.c "s/$pair/int64_t m1 = multiplier(bits >> 2), m3 = multiplier(bits);/"
mutant 'sources: M1 and M3 of IA exchanged' sources.c "s/$pair/int64_t m1 = multiplier(which == IA ? bits >> 2 : bits), m3 = multiplier(which == IA ? bits : bits >> 2);/"
mutant 'sources: M1 and M3 of IB exchanged' sources.c "s/$pair/int64_t m1 = multiplier(which == IB ? bits >> 2 : bits), m3 = multiplier(which == IB ? bits : bits >> 2);/"
mutant 'sources: the bits of IA and IB exchanged' sources.c "s/$bits/int64_t bits = configuration >> (which == IA ? 4 : 0);/"
mutant 'sources: both by the bits of IA' sources.c "s/$bits/int64_t bits = configuration;/"
mutant 'sources: both by the bits of IB' sources.c "s/$bits/int64_t bits = configuration >> 4;/"
mutant 'sources: IB by bits 4:1' sources.c "s/$bits/int64_t bits = configuration >> (which == IA ? 0 : 1);/"
mutant 'sources: IB by bits 6:3' sources.c "s/$bits/int64_t bits = configuration >> (which == IA ? 0 : 3);/"
mutant 'sources: M1 of both, then M3 of both' sources.c "s/$bits/int64_t bits = which == IA ? (configuration \& 3) | (configuration >> 2 \& 12) : (configuration >> 2 \& 3) | (configuration >> 4 \& 12);/"
mutant 'sources: IB from the upper end' sources.c "s/$bits/int64_t bits = which == IA ? configuration : (configuration >> 6 \& 3) | (configuration >> 2 \& 12);/"
for bit in 0 1 2 3 4 5 6 7; do
    mutant "sources: bit $bit lost" sources.c "s/$bits/int64_t bits = (configuration \& ~(INT64_C(1) << $bit)) >> (which == IA ? 0 : 4);/"
    mutant "sources: bit $bit always set" sources.c "s/$bits/int64_t bits = (configuration | INT64_C(1) << $bit) >> (which == IA ? 0 : 4);/"
done
mutant 'sources: IA always S1' sources.c 's/^    return \(struct source\)/    if (which == IA)\n        return (struct source){1, 0, 0};\n&/'
mutant 'sources: IB always S3' sources.c 's/^    return \(struct source\)/    if (which == IB)\n        return (struct source){0, 1, 0};\n&/'

# Inputs
mutant 'sources: S1 and S3 exchanged' feed.c "s/$value/source_value(\&by, stretch->value[S3][k], stretch->value[S1][k])/"
mutant 'sources: S1 and S3 exchanged in a block' feed.c 's/slice\[S1\].sample \+ done, slice\[S3\].sample \+ done/slice[S3].sample + done, slice[S1].sample + done/'
mutant 'sources: V and S1 exchanged in a block' feed.c 's/slice\[V\].sample \+ done, slice\[S1\].sample \+ done/slice[S1].sample + done, slice[V].sample + done/'
mutant 'sources: S3 not read' feed.c 's/slice\[S3\].sample \+ done/slice[S1].sample + done/'
mutant 'sources: S3 is the voltage' feed.c 's/slice\[S3\].sample \+ done/slice[V].sample + done/'
mutant 'sources: of the raw inputs' feed.c 's/value\[k\] = \(int32_t\)mixed\(.*/value[k] = raw[k];/'
mutant 'sources: of the inputs before PHASE' feed.c 's/value\[k\] = \(int32_t\)mixed\(.*/value[k] = (int32_t)amps.value;/'
without() { # FIELD VALUE
    printf '%s' "s/$input/take_input(input == S3 ? \&other : card, before[input], raw[input]/; s/^    struct stretch stretch;/&\n    struct card other = *card;\n\n    other.field[$1] = $2;/"
}
mutant 'sources: S3 without IOFFS' feed.c "$(without IOFFS 0)"
mutant 'sources: S3 without IGAIN' feed.c "$(without IGAIN 2097152)"
mutant 'sources: S3 without PHASE' feed.c "$(without PHASE 0)"
mutant 'sources: S3 with VOFFS' feed.c "$(without IOFFS 'card->field[VOFFS]')"
mutant 'sources: S3 with VGAIN' feed.c "$(without IGAIN 'card->field[VGAIN]')"
mutant 'sources: S1 without PHASE' feed.c "$(without PHASE 0 | sed 's/input == S3/input == S1/')"
mutant 'sources: S1 with VGAIN' feed.c "$(without IGAIN 'card->field[VGAIN]' | sed 's/input == S3/input == S1/')"
passed='s/(static void take_source\(struct sums \*sums, const struct source \*source, )/\1const struct card *card, const int64_t before[SLICES], const int32_t *const raw[SLICES], /; s/take_source\(&interval->source\[which\], &source\[which\], /&card, before, raw, /'
first='int64_t last = source_value(\&by, corrected(before[S1], card->field[IOFFS], card->field[IGAIN]).value, corrected(before[S3], card->field[IOFFS], card->field[IGAIN]).value);'
mutant 'sources: made before PHASE' feed.c \
    "$passed; s/mixed\(phase, amps.value, last\)/amps.value/; s/int64_t i = $value;/int64_t now = source_value(\&by, stretch->value[S1][k], stretch->value[S3][k]), i = mixed(card->field[PHASE], now, last);\n        last = now;/; s/^    const struct source by = .*/&\n    $first/"
mutant 'sources: made before the inputs are corrected' feed.c \
    "$passed; s/int64_t i = $value;/int64_t now = corrected(source_value(\&by, raw[S1][k], raw[S3][k]), card->field[IOFFS], card->field[IGAIN]).value, i = mixed(card->field[PHASE], now, last);\n        last = now;/; s/^    const struct source by = .*/&\n    int64_t last = corrected(source_value(\&by, before[S1], before[S3]), card->field[IOFFS], card->field[IGAIN]).value;/"
mutant 'sources: PHASE for sources of both inputs alone' feed.c \
    "$passed; s/int64_t i = $value;/int64_t i = by.halvings ? source_value(\&by, stretch->value[S1][k], stretch->value[S3][k]) : source_value(\&by, corrected(raw[S1][k], card->field[IOFFS], card->field[IGAIN]).value, corrected(raw[S3][k], card->field[IOFFS], card->field[IGAIN]).value);/"

# The sample before
mutant 'sources: PHASE with the sample before of the other input' feed.c "s/$input/take_input(card, before[S1 + S3 - input], raw[input]/"
mutant 'sources: PHASE of S3 with the sample before of S1' feed.c "s/$input/take_input(card, before[S1], raw[input]/"
mutant 'sources: PHASE of S1 with the sample before of S3' feed.c "s/$input/take_input(card, before[S3], raw[input]/"
mutant 'sources: PHASE with the samples of the other input' feed.c \
    's/(static int64_t take_input\(const struct card \*card, int64_t before, const int32_t \*raw, )/\1const int32_t *other, /; s/take_input\(card, before\[input\], raw\[input\], /take_input(card, before[S1 + S3 - input], raw[input], raw[S1 + S3 - input], /; s/last = amps.value;/last = corrected(other[k], ioffs, igain).value;/'
mutant 'sources: the sample before of S3 kept corrected with the old card' feed.c \
    's/module->previous\[input\] = raw\[input\]\[k\];/module->previous[input] = input == S1 ? raw[input][k] : corrected(raw[input][k], module->card.field[IOFFS], module->card.field[IGAIN]).value + (INT64_C(1) << 40);/; s/int64_t last = corrected\(before, ioffs, igain\).value/int64_t last = before > INT32_MAX ? before - (INT64_C(1) << 40) : corrected(before, ioffs, igain).value/'
mutant 'sources: the sample before of S1 kept corrected with the old card' feed.c \
    's/module->previous\[input\] = raw\[input\]\[k\];/module->previous[input] = input == S3 ? raw[input][k] : corrected(raw[input][k], module->card.field[IOFFS], module->card.field[IGAIN]).value + (INT64_C(1) << 40);/; s/int64_t last = corrected\(before, ioffs, igain\).value/int64_t last = before > INT32_MAX ? before - (INT64_C(1) << 40) : corrected(before, ioffs, igain).value/'
mutant 'sources: the first sample before of S3 is 0' feed.c 's/keep_previous\(module, raw, 0\);/& module->previous[S3] = 0;/'
mutant 'sources: the first sample before of S1 is 0' feed.c 's/keep_previous\(module, raw, 0\);/& module->previous[S1] = 0;/'
mutant 'sources: the first sample before of S3 is that of S1' feed.c 's/keep_previous\(module, raw, 0\);/& module->previous[S3] = raw[S1][0];/'
mutant 'sources: the sample before of S3 forgotten at a close' feed.c "s/$follow/    if (module->interval.samples == 0) module->previous[S3] = raw[S3][0];\n&/"
mutant 'sources: the sample before of S3 forgotten at a block or a close' feed.c "s/$follow/    module->previous[S3] = raw[S3][0];\n&/"
mutant 'sources: the sample before of S3 never kept' feed.c 's/keep_previous\(module, raw, count - 1\);/module->previous[S1] = raw[S1][count - 1];/'
mutant 'sources: the sample before of S3 is the last of S1' feed.c 's/keep_previous\(module, raw, count - 1\);/& module->previous[S3] = raw[S1][count - 1];/'
mutant 'sources: a refused block'"'"'s S3 kept as the sample before' feed.c 's/^        return 6;/        { if (count > 0 \&\& in_range(\&slice[S3])) module->previous[S3] = slice[S3].sample[count - 1]; return 6; }/'

# Halving
mutant 'sources: halved toward zero' sources.h "s@$made@return clipped(source->halvings ? (\1) / 2 : \1);@"
mutant 'sources: halved upward' sources.h "s@$made@return clipped(halved_down(\1 + source->halvings, source->halvings));@"
mutant 'sources: halved away from zero' sources.h "s@$made@return clipped(source->halvings ? (\1 + ((\1) > 0) - ((\1) < 0)) / 2 : \1);@"
mutant 'sources: halved to the nearest even' sources.h "s@$made@return clipped(source->halvings ? halved_down(\1 + (halved_down(\1, 1) \& 1), 1) : \1);@"
mutant 'sources: halved down where the sum is above 0, up below' sources.h "s@$made@return clipped(halved_down(\1 + (source->halvings \&\& (\1) < 0), source->halvings));@"
mutant 'sources: each product halved for itself' sources.h "s@$made@return clipped(halved_down(source->m1 * s1, source->halvings) + halved_down(source->m3 * s3, source->halvings));@"
mutant 'sources: each input halved before it is multiplied' sources.h "s@$made@return clipped(source->m1 * halved_down(s1, source->halvings) + source->m3 * halved_down(s3, source->halvings));@"
mutant 'sources: halved with one multiplier 0' sources.c "s/$halved/m1 != 0 || m3 != 0}/"
mutant 'sources: halved with M1 0' sources.c "s/$halved/m3 != 0}/"
mutant 'sources: halved with M3 0' sources.c "s/$halved/m1 != 0}/"
mutant 'sources: halved with one multiplier 0 and the other 2' sources.c "s/$halved/(m1 != 0 \&\& m3 != 0) || m1 + m3 == 2}/"
mutant 'sources: halved with one multiplier 0 and the other -1' sources.c "s/$halved/(m1 != 0 \&\& m3 != 0) || m1 + m3 == -1}/"
mutant 'sources: always halved' sources.c "s/$halved/1}/"
mutant 'sources: never halved' sources.c "s/$halved/0}/"
mutant 'sources: halved where the codes differ' sources.c "s/$halved/m1 != m3}/"
mutant 'sources: halved where the codes differ and neither is 0' sources.c "s/$halved/m1 != 0 \&\& m3 != 0 \&\& m1 != m3}/"
mutant 'sources: halved where the codes are equal' sources.c "s/$halved/m1 == m3}/"
mutant 'sources: halved where the codes are equal and neither is 0' sources.c "s/$halved/m1 != 0 \&\& m1 == m3}/"
mutant 'sources: halved where both are above 0' sources.c "s/$halved/m1 > 0 \&\& m3 > 0}/"
mutant 'sources: halved where one is above 0' sources.c "s/$halved/m1 != 0 \&\& m3 != 0 \&\& (m1 > 0 || m3 > 0)}/"
mutant 'sources: halved where both have one sign' sources.c "s/$halved/m1 * m3 > 0}/"
mutant 'sources: halved where the multipliers add up to more than 1' sources.c "s/$halved/m1 + m3 > 1}/"
mutant 'sources: halved where both are 1' sources.c "s/$halved/m1 == 1 \&\& m3 == 1}/"
mutant 'sources: not halved where one is 2' sources.c "s/$halved/m1 != 0 \&\& m3 != 0 \&\& m1 != 2 \&\& m3 != 2}/"
mutant 'sources: not halved where both are 2' sources.c "s/$halved/m1 != 0 \&\& m3 != 0 \&\& m1 + m3 != 4}/"
mutant 'sources: not halved where both are -1' sources.c "s/$halved/m1 != 0 \&\& m3 != 0 \&\& m1 + m3 != -2}/"
mutant 'sources: halved by how often inputs are taken' sources.c "s/$halved/m1 != 0 \&\& m3 != 0 ? m1 + m3 > 2 ? 2 : 1 : 0}/"
mutant 'sources: IA alone halved' sources.c "s/$halved/which == IA \&\& m1 != 0 \&\& m3 != 0}/"
mutant 'sources: IB alone halved' sources.c "s/$halved/which == IB \&\& m1 != 0 \&\& m3 != 0}/"
mutant 'sources: IB halved where IA is' sources.c "s/$halved/multiplier(configuration) != 0 \&\& multiplier(configuration >> 2) != 0}/"
mutant 'sources: IA halved where IB is' sources.c "s/$halved/multiplier(configuration >> 4) != 0 \&\& multiplier(configuration >> 6) != 0}/"
mutant 'sources: both halved where one is' sources.c "s/$halved/(multiplier(configuration) != 0 \&\& multiplier(configuration >> 2) != 0) || (multiplier(configuration >> 4) != 0 \&\& multiplier(configuration >> 6) != 0)}/"

# Clipping
mutant 'sources: not clipped' sources.h "s@$made@return halved_down(\1, source->halvings);@"
mutant 'sources: clipped at the upper end alone' sources.h "s@$made@return at_most(halved_down(\1, source->halvings), HIGHEST);@"
mutant 'sources: clipped at the lower end alone' sources.h "s@$made@return at_least(halved_down(\1, source->halvings), LOWEST);@"
mutant 'sources: clipped at -8388607' sources.h "s@$made@return at_least(clipped(halved_down(\1, source->halvings)), -HIGHEST);@"
mutant 'sources: clipped at 8388606' sources.h "s@$made@return at_most(clipped(halved_down(\1, source->halvings)), HIGHEST - 1);@"
mutant 'sources: clipped before it is halved' sources.h "s@$made@return halved_down(clipped(\1), source->halvings);@"
mutant 'sources: each product clipped' sources.h "s@$made@return clipped(halved_down(clipped(source->m1 * s1) + clipped(source->m3 * s3), source->halvings));@"
mutant 'sources: clipped where both inputs are taken alone' sources.h "s@$made@return source->halvings ? clipped(halved_down(\1, 1)) : \1;@"
mutant 'sources: clipped where one input is taken alone' sources.h "s@$made@return source->halvings ? halved_down(\1, 1) : clipped(\1);@"
mutant 'sources: 0 where it is clipped' sources.h "s@$made@return is_outside(halved_down(\1, source->halvings)) ? 0 : halved_down(\1, source->halvings);@"
mutant 'sources: cut to 24 bits' sources.h "s@$made@return (int64_t)((uint64_t)(halved_down(\1, source->halvings) - LOWEST) % 16777216) + LOWEST;@"

# Counts of clipped samples
mutant 'sources: a clip of IA counted for S1, of IB for S3' feed.c "s/$ends/    for (int which = 0; which < SOURCES; which++) $each interval->clipped.of[S1 + which] += $far;\n&/"
mutant 'sources: a clip of either counted for S1' feed.c "s/$ends/    for (int which = 0; which < SOURCES; which++) $each interval->clipped.of[S1] += $far;\n&/"
mutant 'sources: a clip of either counted for V' feed.c "s/$ends/    for (int which = 0; which < SOURCES; which++) $each interval->clipped.of[V] += $far;\n&/"
mutant 'sources: clips of IA and IB counted and not those of the inputs' feed.c \
    "s/interval->clipped.of\[input\] \+= take_input/(void)take_input/; s/$ends/    for (int which = 0; which < SOURCES; which++) $each interval->clipped.of[S1 + which] += $far;\n&/"
mutant 'sources: clipped inputs counted where a source takes them' feed.c \
    's/interval->clipped.of\[input\] \+= (take_input.*)/{ int64_t clips = \1 interval->clipped.of[input] += (input == S1 ? source[IA].m1 != 0 || source[IB].m1 != 0 : source[IA].m3 != 0 || source[IB].m3 != 0) ? clips : 0; }/'
mutant 'sources: clipped inputs counted where IA takes them' feed.c \
    's/interval->clipped.of\[input\] \+= (take_input.*)/{ int64_t clips = \1 interval->clipped.of[input] += (input == S1 ? source[IA].m1 : source[IA].m3) != 0 ? clips : 0; }/'
mutant 'sources: S1 and S3 in one count' feed.c 's/interval->clipped.of\[input\] \+= take_input/interval->clipped.of[S1] += take_input/'
mutant 'sources: S1 and S3 counted for each other' feed.c 's/interval->clipped.of\[input\] \+= take_input/interval->clipped.of[S1 + S3 - input] += take_input/'
mutant 'sources: clips of S3 not counted' feed.c 's/interval->clipped.of\[input\] \+= take_input/interval->clipped.of[input] += (input == S1) * take_input/'
mutant 'sources: clips of S1 not counted' feed.c 's/interval->clipped.of\[input\] \+= take_input/interval->clipped.of[input] += (input == S3) * take_input/'
mutant 'sources: a hold answers S1 and S3 exchanged' module.c "s/$answered/{{closed->clipped.of[V], closed->clipped.of[S3], closed->clipped.of[S1]}}, /"
mutant 'sources: a hold answers S1, S3 and V' module.c "s/$answered/{{closed->clipped.of[S1], closed->clipped.of[S3], closed->clipped.of[V]}}, /"
mutant 'sources: a hold answers S3, S1 and V' module.c "s/$answered/{{closed->clipped.of[S3], closed->clipped.of[S1], closed->clipped.of[V]}}, /"
mutant 'sources: a hold answers S1 twice' module.c "s/$answered/{{closed->clipped.of[V], closed->clipped.of[S1], closed->clipped.of[S1]}}, /"
mutant 'sources: a hold answers V and the sum of both' module.c "s/$answered/{{closed->clipped.of[V], closed->clipped.of[S1] + closed->clipped.of[S3], closed->clipped.of[S3]}}, /"
mutant 'sources: a hold answers S3 of the running interval' module.c "s/$answered/{{closed->clipped.of[V], closed->clipped.of[S1], module->interval.clipped.of[S3]}}, /"
mutant 'sources: a hold answers two counts' console.c '/^static void put_held/,/^\}/s/which < SLICES/which < S3/'
mutant 'sources: a hold answers four counts' console.c '/^static void put_held/,/^\}/s/^    fputs\(held->alarms & SAG/    printf(" %d", 0);\n&/'
mutant 'sources: clips of S3 carried into the next interval' close.c 's/memset\(&module->interval.*/module->interval = (struct interval){.clipped = {{0, 0, module->interval.clipped.of[S3]}}};/'

# The close of each source
mutant 'sources: IB squelched where IA is' close.c "s/$squelch/current_root(module, $ia) < module->card.field[SQUELCH]/"
mutant 'sources: IA squelched where IB is' close.c "s/$squelch/current_root(module, $ib) < module->card.field[SQUELCH]/"
mutant 'sources: both squelched where one is' close.c "s/$squelch/current_root(module, $ia) < module->card.field[SQUELCH] || current_root(module, $ib) < module->card.field[SQUELCH]/"
mutant 'sources: squelched where both are' close.c "s/$squelch/current_root(module, $ia) < module->card.field[SQUELCH] \&\& current_root(module, $ib) < module->card.field[SQUELCH]/"
mutant 'sources: squelched by both together' close.c "s/$squelch/current_root(module, $ia) + current_root(module, $ib) < module->card.field[SQUELCH]/"
mutant 'sources: IB never squelched' close.c "s/$squelch/!($is_ib) \&\& &/"
mutant 'sources: IA never squelched' close.c "s/$squelch/$is_ib \&\& &/"
mutant 'sources: P of IB never squelched' close.c "s/squelched \? 0 : active/squelched \&\& !($is_ib) ? 0 : active/"
mutant 'sources: P of IB 0 where IA is squelched' close.c "s/squelched \? 0 : active/squelched || current_root(module, $ia) < module->card.field[SQUELCH] ? 0 : active/"
mutant 'sources: P of IA 0 where IB is squelched' close.c "s/squelched \? 0 : active/squelched || (!($is_ib) \&\& current_root(module, $ib) < module->card.field[SQUELCH]) ? 0 : active/"
mutant 'sources: IRMSOFFS of IA alone' close.c "s/field\[IRMSOFFS\] \* field\[IRMSOFFS\]/($is_ib ? 0 : field[IRMSOFFS] * field[IRMSOFFS])/"
mutant 'sources: IRMSOFFS of IB alone' close.c "s/field\[IRMSOFFS\] \* field\[IRMSOFFS\]/($is_ib ? field[IRMSOFFS] * field[IRMSOFFS] : 0)/"
mutant 'sources: POFFS of IA alone' close.c "s/- module->card.field\[POFFS\]/- ($is_ib ? 0 : module->card.field[POFFS])/"
mutant 'sources: POFFS of IB alone' close.c "s/- module->card.field\[POFFS\]/- ($is_ib ? module->card.field[POFFS] : 0)/"
mutant 'sources: POFFS halved for each' close.c 's/- module->card.field\[POFFS\]/- module->card.field[POFFS] \/ 2/'
mutant 'sources: IRMSOFFS taken from the inputs' feed.c 's/value\[k\] = \(int32_t\)mixed\((.*)\);/int64_t size = size_of(mixed(\1)) - card->field[IRMSOFFS];\n        value[k] = (int32_t)(size < 0 ? 0 : mixed(\1) < 0 ? -size : size);/' close.c 's/ - field\[IRMSOFFS\] \* field\[IRMSOFFS\]//'
mutant 'sources: the RMS of IA for both' close.c "s/squelched \? 0 : root;/squelched ? 0 : current_root(module, $ia);/"
mutant 'sources: the peak of IA for both' close.c 's/at_most\(sums->peak, HIGHEST\)/at_most(module->interval.source[IA].peak, HIGHEST)/'
mutant 'sources: the peak of IB for both' close.c 's/at_most\(sums->peak, HIGHEST\)/at_most(module->interval.source[IB].peak, HIGHEST)/'
mutant 'sources: the greater peak for both' close.c 's/at_most\(sums->peak, HIGHEST\)/at_most(at_least(module->interval.source[IA].peak, module->interval.source[IB].peak), HIGHEST)/'
mutant 'sources: P of IA for both' close.c "s/: active_power\(module, sums\)/: active_power(module, $ia)/"
mutant 'sources: P of IB with its sign turned' close.c "s/int64_t power = clipped\((.*)\);/int64_t power = clipped(($is_ib ? -1 : 1) * (\1));/"
mutant 'sources: the voltage halved for each' close.c 's/^    shown\[VA\] = volts/    shown[VA] = volts \/ 2/'
mutant 'sources: S of IB by the RMS of IA' close.c "s/volts \* shown\[RMS\]/volts * ($is_ib ? shown[RMS - RESULTS] : shown[RMS])/"
mutant 'sources: PF of IB by the S of IA' close.c "s/power_factor\(shown\[WATT\], shown\[VA\]\)/power_factor(shown[WATT], $is_ib ? shown[VA - RESULTS] : shown[VA])/"
mutant 'sources: PF of IB by the P of IA' close.c "s/power_factor\(shown\[WATT\], shown\[VA\]\)/power_factor($is_ib ? shown[WATT - RESULTS] : shown[WATT], shown[VA])/"
mutant 'sources: crest of IB by the RMS of IA' close.c "s/crest\(shown\[PEAK\], shown\[RMS\]\)/crest(shown[PEAK], $is_ib ? shown[RMS - RESULTS] : shown[RMS])/"
mutant 'sources: crest of IB by the peak of IA' close.c "s/crest\(shown\[PEAK\], shown\[RMS\]\)/crest($is_ib ? shown[PEAK - RESULTS] : shown[PEAK], shown[RMS])/"
mutant 'sources: IA and IB exchanged at the close' close.c 's/&module->interval.source\[which\], plain/\&module->interval.source[SOURCES - 1 - which], plain/'
mutant 'sources: IA worked twice' close.c 's/&module->interval.source\[which\], plain/\&module->interval.source[IA], plain/'
mutant 'sources: IB not worked' close.c '/^static void work_registers/,/^\}/s/which < SOURCES/which < IB/'
mutant 'sources: the sums of IB not begun anew' close.c 's/memset\(&module->interval.*/module->interval = (struct interval){.source = {[IB] = module->interval.source[IB]}};/'
mutant 'sources: the squares of IB not begun anew' close.c 's/memset\(&module->interval.*/module->interval = (struct interval){.source = {[IB] = {.squares = module->interval.source[IB].squares}}};/'
mutant 'sources: the products of IB not begun anew' close.c 's/memset\(&module->interval.*/module->interval = (struct interval){.source = {[IB] = {.products = module->interval.source[IB].products}}};/'
mutant 'sources: the peak of IB not begun anew' close.c 's/memset\(&module->interval.*/module->interval = (struct interval){.source = {[IB] = {.peak = module->interval.source[IB].peak}}};/'
mutant 'sources: IB of the last block alone' feed.c 's/^    while \(done < count\)/    if (count > 0) module->interval.source[IB] = (struct sums){0, 0, 0};\n&/'
mutant 'sources: the peak of S1 for that of a source' feed.c 's/greatest = i > greatest \? i : greatest;/greatest = at_least(greatest, size_of(stretch->value[S1][k]));/'
mutant 'sources: the products with the size of the voltage' feed.c 's/products \+= stretch->value\[V\]\[k\] \* i;/products += size_of(stretch->value[V][k]) * i;/'

# Energy
mutant 'sources: energy of IB into the counts of IA' close.c 's/&module->energies\[which\]/\&module->energies[IA]/'
mutant 'sources: energy of IA into the counts of IB' close.c 's/&module->energies\[which\]/\&module->energies[IB]/'
mutant 'sources: counts of IA and IB shown exchanged' close.c 's/^                    plain \+ OF_IA.*/&\n    for (int k = POS_CNT; k <= NEG_CNT; k++) { int64_t was = plain[OF_IA + k]; plain[OF_IA + k] = plain[OF_IB + k]; plain[OF_IB + k] = was; }/'
mutant 'sources: energy of IB not counted' close.c "s/^    count_energy\(module, energies/    if (!($is_ib))\n    &/"
mutant 'sources: energy of IB counted in IA as well' close.c 's/^                    plain \+ OF_IA.*/&\n    count_energy(module, \&module->energies[IA], plain[OF_IB + WATT]);/'
mutant 'sources: energy of IA counted in IB as well' close.c 's/^                    plain \+ OF_IA.*/&\n    count_energy(module, \&module->energies[IB], plain[OF_IA + WATT]);/'
mutant 'sources: directions of IB exchanged' close.c "s/^    count_energy\(module, energies, shown\[WATT\]\);/    count_energy(module, energies, $is_ib ? -shown[WATT] : shown[WATT]);/"
mutant 'sources: directions of IB shown exchanged' close.c "s/^    shown\[NEG_CNT\] = .*/&\n    if ($is_ib) { shown[POS_CNT] = energies->negative.count; shown[NEG_CNT] = energies->positive.count; }/"
mutant 'sources: energy of IB by its size alone' close.c "s/^    count_energy\(module, energies, shown\[WATT\]\);/    count_energy(module, energies, $is_ib ? size_of(shown[WATT]) : shown[WATT]);/"
mutant 'sources: energy of IB counted where IA has some' close.c "s/^    count_energy\(module, energies, shown\[WATT\]\);/    if (!($is_ib) || shown[WATT - RESULTS] != 0)\n    &/"
mutant 'sources: energy of IB counted where IA has the same sign' close.c "s/^    count_energy\(module, energies, shown\[WATT\]\);/    if (!($is_ib) || (shown[WATT - RESULTS] < 0) == (shown[WATT] < 0))\n    &/"
mutant 'sources: energy of IB of P before SQUELCH' close.c "s/^    count_energy\(module, energies, shown\[WATT\]\);/    count_energy(module, energies, $is_ib ? active_power(module, sums) : shown[WATT]);/"
mutant 'sources: one remainder for IA and IB' close.c 's/^                    plain \+ OF_IA.*/&\n    module->energies[IA].positive.remainder = module->energies[IB].positive.remainder; module->energies[IA].negative.remainder = module->energies[IB].negative.remainder;/'
mutant 'sources: remainders of IB lost' close.c 's/^                    plain \+ OF_IA.*/&\n    module->energies[IB].positive.remainder = module->energies[IB].negative.remainder = 0;/'
mutant 'sources: counts of IB of the interval alone' close.c 's/^    plain\[VA_RMS\] = voltage_rms\(module\);/&\n    module->energies[IB].positive.count = module->energies[IB].negative.count = 0;/'
mutant 'sources: the difference of IA and IB counted' close.c 's/^                    plain \+ OF_IA.*/&\n    plain[OF_IA + POS_CNT] = (plain[OF_IA + POS_CNT] - plain[OF_IB + NEG_CNT] + WHOLE_COUNT) % WHOLE_COUNT;/'
mutant 'sources: counts of IB up to 65535' close.c "s/^    shown\[NEG_CNT\] = .*/&\n    if ($is_ib) shown[POS_CNT] = at_most(shown[POS_CNT], 65535);/"

# Registers
row() { # NAME WORD WRONG-WORD
    mutant "sources: $1 at word $3" registers.c "s/= $2,/= $3,/"
}
row IB_RMS 0x3F 0x40
row IB_PEAK 0x47 0x48
row WATT_B 0x4C 0x4D
row VA_B 0x4F 0x50
row PFB 0x66 0x67
row IB_CREST 0x8C 0x8D
row PB_POS_CNT 0x95 0x90
row PB_NEG_CNT 0x98 0x93
exchanged() { # NAME WORD NAME WORD
    mutant "sources: $1 and $3 exchanged" registers.c "s/= $2,/= 0x1FF,/; s/= $4,/= $2,/; s/= 0x1FF,/= $4,/"
}
exchanged IA_RMS 0x3E IB_RMS 0x3F
exchanged IA_PEAK 0x46 IB_PEAK 0x47
exchanged WATT_A 0x4B WATT_B 0x4C
exchanged VA_A 0x4E VA_B 0x4F
exchanged PFA 0x65 PFB 0x66
exchanged IA_CREST 0x8B IB_CREST 0x8C
exchanged PA_POS_CNT 0x8F PB_POS_CNT 0x95
exchanged PA_NEG_CNT 0x92 PB_NEG_CNT 0x98
exchanged PB_POS_CNT 0x95 PB_NEG_CNT 0x98
exchanged IB_RMS 0x3F IB_PEAK 0x47
exchanged WATT_B 0x4C VA_B 0x4F
exchanged PFB 0x66 IB_CREST 0x8C
for word in 0x3F 0x47 0x4C 0x4F 0x66 0x8C 0x95 0x98; do
    mutant "sources: word $word may be tracked" registers.c "s/^    return which < TRACKABLE/    return word == $word || which < TRACKABLE/"
    mutant "sources: word $word is no register" registers.c "s/^    if \(byte_address % 3 != 0\)/    if (byte_address % 3 != 0 || word == $word)/"
    mutant "sources: word $word polled is refused" packet.c "s/if \(work->registers == NULL \|\|/if (work->registers == NULL || work->pointer == 3 * $word ||/"
done
mutant 'sources: IB tracked for IA' close.c 's/value = registers->plain\[slot\[k\]\];/value = registers->plain[slot[k] >= OF_IA ? slot[k] + RESULTS : slot[k]];/'
mutant 'sources: the RMS of IB tracked for that of IA' close.c 's/value = registers->plain\[slot\[k\]\];/value = registers->plain[slot[k] == OF_IA + RMS ? OF_IB + RMS : slot[k]];/'
mutant 'sources: P of IB tracked for that of IA' close.c 's/value = registers->plain\[slot\[k\]\];/value = registers->plain[slot[k] == OF_IA + WATT ? OF_IB + WATT : slot[k]];/'
mutant 'sources: the less of IA and IB tracked' close.c 's/value = registers->plain\[slot\[k\]\];/& if (slot[k] >= OF_IA) value = at_most(value, registers->plain[slot[k] + RESULTS]);/'
mutant 'sources: a word of IB tracks the register of IA' registers.c 's/^    return which < TRACKABLE/    which -= which >= OF_IB ? RESULTS : 0;\n&/'
mutant 'sources: IB read as it is now' module.c 's/^    return register_read\(&module->port\[port\].hold.registers, (.*)\);/    struct registers now = module->port[port].hold.registers; memcpy(now.plain + OF_IB, module->closed.registers.plain + OF_IB, RESULTS * sizeof now.plain[0]);\n    return register_read(\&now, \1);/'
mutant 'sources: a read of more than one register within IA and IB refused' packet.c '/^static enum code read_bytes/,/^\}/s/^    if \(count % 3 != 0\)/    if (count % 3 != 0 || (count > 3 \&\& (work->pointer < 0x153 || work->pointer > 0x174)))/'
mutant 'sources: a read that goes from IA on to IB sends IA twice' packet.c 's/register_read\(work->registers, work->slot, work->pointer, &value\) != 0/register_read(work->registers, work->slot, work->pointer - (work->data_length > 0 \&\& (work->pointer == 0xBD || work->pointer == 0xE4) ? 3 : 0), \&value) != 0/'

# Names
for name in IB_RMS IB_PEAK WATT_B VA_B PFB IB_CREST PB_POS_CNT PB_NEG_CNT; do
    mutant "sources: the name $name unknown" names.c "s/\"$name\"/\"${name}X\"/"
done
for names in 'IA_RMS IB_RMS' 'IA_PEAK IB_PEAK' 'WATT_A WATT_B' 'VA_A VA_B' 'PFA PFB' 'IA_CREST IB_CREST' 'PA_POS_CNT PB_POS_CNT' 'PA_NEG_CNT PB_NEG_CNT' \
    'PB_POS_CNT PB_NEG_CNT'; do
    mutant "sources: the names ${names/ / and } exchanged" names.c "s/\"${names% *}\"/\"X\"/; s/\"${names#* }\"/\"${names% *}\"/; s/\"X\"/\"${names#* }\"/"
done
mutant 'sources: a name of IB not read in a start' line.c "s|^    if \(\*number != 0\)|    if (*number != 0 \&\& !(what == 'w' \&\& item.length > 1 \&\& item.at[0] == 'I' \&\& item.at[1] == 'B'))|"

# Refusals of a block
mutant 'sources: the length of S3 not looked at' feed.c "s/$refuses/if (slice[S1].count != count || count > BLOCK_MOST)/"
mutant 'sources: the length of S1 not looked at' feed.c "s/$refuses/if (slice[S3].count != count || count > BLOCK_MOST)/"
mutant 'sources: the length of V not looked at' feed.c "s/$refuses/if (count = slice[S1].count, slice[S3].count != count || count > BLOCK_MOST)/"
mutant 'sources: a longer S3 taken' feed.c "s/$refuses/if (slice[S1].count != count || slice[S3].count < count || count > BLOCK_MOST)/"
mutant 'sources: a shorter S3 taken' feed.c "s/$refuses/if (slice[S1].count != count || slice[S3].count > count || count > BLOCK_MOST)/"
mutant 'sources: a longer S1 taken' feed.c "s/$refuses/if (slice[S1].count < count || slice[S3].count != count || count > BLOCK_MOST)/"
mutant 'sources: a shorter S1 taken' feed.c "s/$refuses/if (slice[S1].count > count || slice[S3].count != count || count > BLOCK_MOST)/"
mutant 'sources: an empty S3 taken' feed.c "s/$refuses/if (slice[S1].count != count || (slice[S3].count != count \&\& slice[S3].count != 0) || count > BLOCK_MOST)/"
mutant 'sources: an empty S1 taken' feed.c "s/$refuses/if ((slice[S1].count != count \&\& slice[S1].count != 0) || slice[S3].count != count || count > BLOCK_MOST)/"
mutant 'sources: refused where both inputs differ in length' feed.c "s/$refuses/if ((slice[S1].count != count \&\& slice[S3].count != count) || count > BLOCK_MOST)/"
mutant 'sources: the lengths of all three added up' feed.c "s/$refuses/if (slice[S1].count + slice[S3].count != 2 * count || count > BLOCK_MOST)/"
mutant 'sources: the shortest slice decides' feed.c "s/$refuses/if (slice[S1].count < count) count = slice[S1].count; if (slice[S3].count < count) count = slice[S3].count; if (count > BLOCK_MOST)/"
mutant 'sources: samples of S3 not looked at' feed.c "s/$judges/if (!in_range(\&slice[V]) || !in_range(\&slice[S1]))/"
mutant 'sources: samples of S1 not looked at' feed.c "s/$judges/if (!in_range(\&slice[V]) || !in_range(\&slice[S3]))/"
mutant 'sources: samples of V not looked at' feed.c "s/$judges/if (!in_range(\&slice[S1]) || !in_range(\&slice[S3]))/"
mutant 'sources: samples of S3 looked at behind the card' feed.c "s/$judges/if (!in_range(\&slice[V]) || !in_range(\&slice[S1]))/; s/^    while \(done < count\)/    if (!in_range(\&slice[S3]))\n        return 6;\n&/"
mutant 'sources: samples of S3 looked at before the lengths' feed.c "s/^    $refuses/    if (!in_range(\&slice[S3]))\n        return 6;\n&/"
mutant 'sources: samples of S1 looked at before the lengths' feed.c "s/^    $refuses/    if (!in_range(\&slice[S1]))\n        return 6;\n&/"
mutant 'sources: samples of V looked at before the length of S3' feed.c "s/$refuses/if (slice[S1].count == count \&\& !in_range(\&slice[V])) return 6;\n    &/"
mutant 'sources: the last sample of S3 not looked at' feed.c "s/$judges/if (!in_range(\&slice[V]) || !in_range(\&slice[S1]) || !in_range(\&(struct slice){slice[S3].sample, count > 0 ? count - 1 : 0}))/"
mutant 'sources: the first sample of S3 alone looked at' feed.c "s/$judges/if (!in_range(\&slice[V]) || !in_range(\&slice[S1]) || !in_range(\&(struct slice){slice[S3].sample, count > 0}))/"
mutant 'sources: S3 without a source not looked at' feed.c "s/$judges/if (!in_range(\&slice[V]) || !in_range(\&slice[S1]) || ((module->source[IA].m3 != 0 || module->source[IB].m3 != 0) \&\& !in_range(\&slice[S3])))/"

# The configuration of a start
allowed='return configuration >= 0 && configuration <= 255;'
mutant 'sources: configuration 256 taken' sources.c "s/$allowed/return configuration >= 0 \&\& configuration <= 256;/"
mutant 'sources: configuration 255 refused' sources.c "s/$allowed/return configuration >= 0 \&\& configuration < 255;/"
mutant 'sources: configuration -1 taken' sources.c "s/$allowed/return configuration >= -1 \&\& configuration <= 255;/"
mutant 'sources: configuration 0 refused' sources.c "s/$allowed/return configuration > 0 \&\& configuration <= 255;/"
mutant 'sources: any configuration taken, by its lower bits' sources.c "s/$allowed/return configuration == configuration;/"
mutant 'sources: a configuration of 24 bits taken' sources.c "s/$allowed/return configuration >= 0 \&\& configuration < 16777216;/"
mutant 'sources: a configuration cut to 32 bits' sources.c "s/$allowed/return (int32_t)configuration >= 0 \&\& (int32_t)configuration <= 255;/"
mutant 'sources: a configuration cut to 8 bits of its size' sources.c "s/$allowed/return configuration <= 255 \&\& configuration >= -255;/"
mutant 'sources: a source of nothing refused' sources.c "s/$allowed/return configuration >= 0 \&\& configuration <= 255 \&\& (configuration \& 15) != 5 \&\& (configuration >> 4) != 5;/"
mutant 'sources: equal sources refused' sources.c "s/$allowed/return configuration >= 0 \&\& configuration <= 255 \&\& (configuration \& 15) != (configuration >> 4);/"
mutant 'sources: a configuration refused with 12' module.c 's/ \|\| !configuration_allowed\(configuration\)\)/)/; s/^    module->samples = samples;/    if (!configuration_allowed(configuration)) return 12;\n&/'
mutant 'sources: a configuration left out is 0x96' console.c 's/= \{1, 0, 0, 0, 0\};/= {1, 0, 0, 0, 150};/'
mutant 'sources: a configuration left out is 255' console.c 's/= \{1, 0, 0, 0, 0\};/= {1, 0, 0, 0, 255};/'
mutant 'sources: a configuration left out is 0x55' console.c 's/= \{1, 0, 0, 0, 0\};/= {1, 0, 0, 0, 0x55};/'
mutant 'sources: a configuration left out stays as it was' console.c 's/^    refusal = module_start/    static int64_t was; if (step->numbers < NUMBERS_MOST) setting[4] = was;\n&/; s/^        \*module = fresh;/        { *module = fresh; was = setting[4]; }/'
mutant 'sources: a refused start takes the configuration' console.c 's/^    return refusal;/    if (refusal != 0) for (int which = 0; which < SOURCES; which++) module->source[which] = source_from(setting[4], which);\n&/'
mutant 'sources: a refused start has configuration 0' console.c 's/^    return refusal;/    if (refusal != 0) for (int which = 0; which < SOURCES; which++) module->source[which] = source_from(0, which);\n&/'
mutant 'sources: an accepted start keeps the configuration' console.c 's/\*module = fresh;/{ struct source ia = module->source[IA], ib = module->source[IB]; *module = fresh; module->source[IA] = ia; module->source[IB] = ib; }/'
mutant 'sources: before the first start IA is S1 and IB is S3' module.c 's/configure\(module, 0\);/configure(module, 0x96);/'
mutant 'sources: before the first start there is no source' module.c 's/configure\(module, 0\);/configure(module, 0x55);/'
mutant 'sources: the configuration before the sticky mask' console.c 's/setting\[2\], setting\[3\]\};/setting[2], setting[4]};/; s/&settings, setting\[4\]\)/\&settings, setting[3])/'
mutant 'sources: the configuration not read' line.c 's|"nnwwwwwwooooo"|"nnwwwwwwoooo"|'
mutant 'sources: the configuration may not be left out behind the sticky mask' line.c 's|"nnwwwwwwooooo"|"nnwwwwwwooonn"|; s/^        if \(items\[k\] == .o. && at_end\(rest\)\)/        if ((items[k] == '"'o'"' || k == 11) \&\& at_end(rest))/'
mutant 'sources: a commit ends the configuration' module.c 's/^    module->card_waits = true;/&\n    configure(module, 0);/'
mutant 'sources: a close exchanges the sources' close.c 's/^    module->some_closed = true;/&\n    { struct source was = module->source[IA]; module->source[IA] = module->source[IB]; module->source[IB] = was; }/'

# The line of a block
taking='/^static enum unread take_block/,/^\}/'
mutant 'sources: a block with one bar has nothing at S3' line.c "$taking s/: take_bar\(rest\)/: take_bar(rest) || (which == S1 \&\& at_end(rest))/"
mutant 'sources: a third bar ends the block' line.c "$taking s/last \? at_end\(rest\)/last ? at_end(rest) || (take_bar(rest) \&\& (rest->at = rest->end, true))/"
mutant 'sources: a third bar passed over' line.c "$taking s/last \? at_end\(rest\)/last ? (take_bar(rest), at_end(rest))/"
mutant 'sources: 4,096 samples a slice read' line.h 's/SLICE_MOST = 8192/SLICE_MOST = 4096/'
mutant 'sources: the words of a block of two slices' words.c 's/fewer than two bars/no bar between voltages and currents/'
mutant 'sources: the words of a slice' words.c 's/8,192 samples in a slice/8,192 samples on a side/'
mutant 'sources: the help without CONFIG' words.c 's/ \[CONFIG\]//'
mutant 'sources: the help without the sources' words.c '/^    "#   CONFIG/d; /^    "each is half/d'
mutant 'sources: the help of a block of two slices' words.c 's/# block V \| S1 \| S3: samples/# block V | S1: samples/'
