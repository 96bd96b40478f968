# mutants-clipped.sh: the wrong rules of clipped samples (document 02, A2); mutants reads it.
# shellcheck shell=bash disable=SC2154
counted='outside \+= amps.outside;'
previous='corrected(k ? raw[k - 1] : before, ioffs, igain).outside'
joined='interval->clipped.of\[input\] \+= take_input\(.*'
first='interval->samples == 0 \&\& corrected(before[input], card->field[IOFFS], card->field[IGAIN]).outside'
ends='^    interval->samples \+= .*'
tested='is_outside\(far\)\}'
closing='module->closed.clipped = module->interval.clipped;'
answered='closed->clipped, '
none='(struct clippings){{0, 0, 0}}'
both='corrected(raw[V][k], card->field[VOFFS], card->field[VGAIN]).outside \&\& corrected(raw[S1][k], card->field[IOFFS], card->field[IGAIN]).outside'
every='for (int which = 0; which < SLICES; which++)'
mutant 'clipped: the previous current counted too' feed.c "s/$counted/& outside += $previous;/"
mutant 'clipped: the previous current counted too where PHASE is not 0' feed.c "s/$counted/& outside += phase != 0 \&\& $previous;/"
mutant 'clipped: the previous current counted instead' feed.c "s/$counted/outside += $previous;/"
mutant 'clipped: the previous current counted at an interval'"'"'s first sample' feed.c "s/$joined/{ & interval->clipped.of[input] += $first; }/"
mutant 'clipped: the previous current counted at a first sample with PHASE' feed.c "s/$joined/{ & interval->clipped.of[input] += card->field[PHASE] != 0 \&\& $first; }/"
mutant 'clipped: the previous current counted at a block'"'"'s first sample' feed.c "s/$counted/& outside += k == 0 \&\& $previous;/"
mutant 'clipped: the module'"'"'s first current counted twice' feed.c \
    's|keep_previous\(module, raw, 0\);|& for (int w = S1; w <= S3; w++) module->interval.clipped.of[w] += corrected(raw[w][0], module->card.field[IOFFS], module->card.field[IGAIN]).outside;|'
mutant 'clipped: carried into the next interval' close.c 's|memset\(&module->interval.*|module->interval = (struct interval){.clipped = module->interval.clipped};|'
mutant 'clipped: voltages carried into the next interval' close.c 's|memset\(&module->interval.*|module->interval = (struct interval){.clipped = {{module->interval.clipped.of[V], 0, 0}}};|'
mutant 'clipped: currents carried into the next interval' close.c 's|memset\(&module->interval.*|module->interval = (struct interval){.clipped = {{0, module->interval.clipped.of[S1], module->interval.clipped.of[S3]}}};|'
mutant 'clipped: a value at an end counted' feed.c "s/$tested/is_outside(far) || far == HIGHEST || far == LOWEST}/"
mutant 'clipped: a value at the upper end counted' feed.c "s/$tested/is_outside(far) || far == HIGHEST}/"
mutant 'clipped: a value at the lower end counted' feed.c "s/$tested/is_outside(far) || far == LOWEST}/"
mutant 'clipped: one above the upper end not counted' feed.c "s/$tested/is_outside(far) \&\& far != HIGHEST + 1}/"
mutant 'clipped: one below the lower end not counted' feed.c "s/$tested/is_outside(far) \&\& far != LOWEST - 1}/"
mutant 'clipped: the lower end the upper one'"'"'s negative' feed.c "s/$tested/size_of(far) > HIGHEST}/"
mutant 'clipped: the upper end the lower one'"'"'s negative' feed.c "s/$tested/size_of(far) > -LOWEST}/"
mutant 'clipped: only above 0' feed.c "s/$tested/is_outside(far) \&\& far > 0}/"
mutant 'clipped: only below 0' feed.c "s/$tested/is_outside(far) \&\& far < 0}/"
mutant 'clipped: voltages only above 0' feed.c 's|\+= volts.outside|+= volts.outside \&\& volts.value > 0|'
mutant 'clipped: currents only above 0' feed.c 's|\+= amps.outside|+= amps.outside \&\& amps.value > 0|'
mutant 'clipped: voltages only below 0' feed.c 's|\+= volts.outside|+= volts.outside \&\& volts.value < 0|'
mutant 'clipped: currents only below 0' feed.c 's|\+= amps.outside|+= amps.outside \&\& amps.value < 0|'
mutant 'clipped: voltages and currents exchanged' module.c "s/$answered/{{closed->clipped.of[S1], closed->clipped.of[V], closed->clipped.of[S3]}}, /"
mutant 'clipped: a hold answers those of the running interval' module.c "s/$answered/module->interval.clipped, /"
mutant 'clipped: a hold answers those of the running interval, if one runs' module.c "s/$answered/module->interval.samples ? module->interval.clipped : closed->clipped, /"
mutant 'clipped: a hold answers those of both intervals' module.c \
    "s/^    \*held = \(struct held\).*/&\n    $every held->clipped.of[which] += module->interval.clipped.of[which];/"
mutant 'clipped: those of the interval before' close.c "s|$closing|static struct clippings last; module->closed.clipped = last; last = module->interval.clipped;|"
mutant 'clipped: those of the first interval' close.c "s|$closing|if (!module->some_closed) &|"
mutant 'clipped: the greatest so far' close.c \
    "s/$closing/$every module->closed.clipped.of[which] = at_least(module->closed.clipped.of[which], module->interval.clipped.of[which]);/"
mutant 'clipped: all since the start' close.c \
    "s/$closing/$every module->closed.clipped.of[which] += module->interval.clipped.of[which];/"
mutant 'clipped: those of the other port'"'"'s hold' module.c "s/$answered/module->port[1 - port].hold.clipped, /"
mutant 'clipped: those of the port'"'"'s hold before' module.c "s/$answered/was, /; s/^    module->port\[port\].held = true;/    if (!module->port[port].held) was = closed->clipped;\n&/; s/^    module->port\[port\].hold =/    struct clippings was = module->port[port].hold.clipped;\n&/"
mutant 'clipped: the mixed current tested' feed.c 's|\+= amps.outside|+= is_outside(value[k])|'
mutant 'clipped: the mixed current tested at the ends' feed.c 's/\+= amps.outside/+= value[k] == HIGHEST || value[k] == LOWEST/'
mutant 'clipped: the mix of unclipped currents tested' feed.c \
    's|\+= amps.outside|+= is_outside(mixed(phase, halved_down((raw[k] - ioffs) * igain, 21), halved_down(((k ? raw[k - 1] : before) - ioffs) * igain, 21)))|'
mutant 'clipped: tested before the division' feed.c "s/$tested/(raw - offset) * gain > HIGHEST * 2097152 || (raw - offset) * gain < LOWEST * 2097152}/"
mutant 'clipped: the product tested' feed.c "s/$tested/is_outside((raw - offset) * gain)}/"
mutant 'clipped: tested with rounding toward zero' feed.c "s/$tested/is_outside((raw - offset) * gain \/ 2097152)}/"
mutant 'clipped: tested with rounding to the nearest' feed.c "s/$tested/is_outside(halved_down((raw - offset) * gain + 1048576, 21))}/"
mutant 'clipped: tested before the gain' feed.c "s/$tested/is_outside(raw - offset)}/"
mutant 'clipped: tested before the offset' feed.c "s/$tested/is_outside(halved_down(raw * gain, 21))}/"
mutant 'clipped: tested with the offset behind the gain' feed.c "s/$tested/is_outside(halved_down(raw * gain, 21) - offset)}/"
mutant 'clipped: the raw sample tested' feed.c "s/$tested/is_outside(raw)}/"
mutant 'clipped: the raw sample tested at the ends' feed.c "s/$tested/raw == HIGHEST || raw == LOWEST}/"
mutant 'clipped: once a block' feed.c \
    's|interval->clipped.of\[V\] \+= outside;|interval->clipped.of[V] += outside > 0;|; s|^    return outside;|    return outside > 0;|'
mutant 'clipped: once an interval' close.c "s|$closing|$every module->closed.clipped.of[which] = module->interval.clipped.of[which] > 0;|"
mutant 'clipped: the last block alone' feed.c "s|^    while \(done < count\)|    if (count > 0) module->interval.clipped = $none;\n&|"
mutant 'clipped: not at an interval'"'"'s first sample' feed.c \
    "s/\+= volts.outside/+= k + (size_t)interval->samples > 0 \&\& volts.outside/; s/$joined/{ & interval->clipped.of[input] -= interval->samples == 0 \&\& corrected(raw[input][0], card->field[IOFFS], card->field[IGAIN]).outside; }/"
last='corrected(raw[which][count - 1], module->card.field[which == V ? VOFFS : IOFFS], module->card.field[which == V ? VGAIN : IGAIN]).outside;'
mutant 'clipped: not at an interval'"'"'s last sample' feed.c \
    "s/^    if \(module->interval.samples == module->samples\)/& $every module->interval.clipped.of[which] -= $last\n&/"
mutant 'clipped: the last sample counted in the next interval' feed.c \
    "s/^    if \(module->interval.samples == module->samples\)/& { $every module->interval.clipped.of[which] -= $last interval_close(module); $every module->interval.clipped.of[which] += $last } else if (false)/"
mutant 'clipped: up to 255' close.c "s|$closing|$every module->closed.clipped.of[which] = at_most(module->interval.clipped.of[which], 255);|"
mutant 'clipped: in eight bits' close.c "s|$closing|$every module->closed.clipped.of[which] = module->interval.clipped.of[which] % 256;|"
mutant 'clipped: up to 4095' close.c "s|$closing|$every module->closed.clipped.of[which] = at_most(module->interval.clipped.of[which], 4095);|"
mutant 'clipped: in twelve bits' close.c "s|$closing|$every module->closed.clipped.of[which] = module->interval.clipped.of[which] % 4096;|"
mutant 'clipped: a voltage counted as a current too' feed.c 's|^    take_voltage\(.*|    int64_t was = interval->clipped.of[V];\n&\n    interval->clipped.of[S1] += interval->clipped.of[V] - was;|'
mutant 'clipped: a current counted as a voltage too' feed.c "s/$joined/{ int64_t was = interval->clipped.of[input]; & interval->clipped.of[V] += interval->clipped.of[input] - was; }/"
mutant 'clipped: of both at once the voltage alone' feed.c "s/$ends/    for (size_t k = 0; k < count; k++) interval->clipped.of[S1] -= $both;\n&/"
mutant 'clipped: of both at once the current alone' feed.c "s/$ends/    for (size_t k = 0; k < count; k++) interval->clipped.of[V] -= $both;\n&/"
mutant 'clipped: currents only where PHASE is 0' feed.c 's|\+= amps.outside|+= phase == 0 \&\& amps.outside|'
mutant 'clipped: no currents in a squelched interval' close.c "s|$closing|& if (module->closed.registers.plain[OF_IA + RMS] == 0) module->closed.clipped.of[S1] = 0;|"
mutant 'clipped: by the card that waits' feed.c \
    's|accumulate\(&module->interval, &module->card, (.*)\);|struct interval other = {.clipped = module->interval.clipped}; accumulate(\&other, module->card_waits ? \&module->waiting : \&module->card, \1); & module->interval.clipped = other.clipped;|'
mutant 'clipped: by the card before' feed.c \
    's|accumulate\(&module->interval, &module->card, (.*)\);|static struct card first, now; if (!serial_equal(\&now.serial, \&module->card.serial)) { first = now.serial.length ? now : module->card; now = module->card; } struct interval other = {.clipped = module->interval.clipped}; accumulate(\&other, \&first, \1); & module->interval.clipped = other.clipped;|'
mutant 'clipped: a commit begins the counts anew' module.c "s|module->waiting = at->card;|& module->interval.clipped = $none;|"
mutant 'clipped: a commit forgets those of the closed interval' module.c "s|module->waiting = at->card;|& module->closed.clipped = $none;|"
mutant 'clipped: a new card forgets those of the closed interval' feed.c "s|module->has_card = true;|& module->closed.clipped = $none;|"
mutant 'clipped: a first sample forgets those of the closed interval' feed.c "s|^    take_waiting_card\(module\);|    if (module->interval.samples == 0) module->closed.clipped = $none;\n&|"
mutant 'clipped: a hold begins the counts anew' module.c "s|module->port\[port\].held = true;|& module->interval.clipped = $none;|"
mutant 'clipped: a hold forgets those of the closed interval' module.c "s|^    \*held = \(struct held\).*|& module->closed.clipped = $none;|"
mutant 'clipped: a start keeps the running counts' console.c 's|\*module = fresh;|{ fresh.interval.clipped = module->interval.clipped; *module = fresh; }|'
mutant 'clipped: a refused start begins the counts anew' console.c "s|^    return refusal;|    if (refusal != 0) module->interval.clipped = $none; &|"
mutant 'clipped: a refused start forgets those of the closed interval' console.c "s|^    return refusal;|    if (refusal != 0) module->closed.clipped = $none; &|"
mutant 'clipped: a refused block begins the counts anew' feed.c "s/^        return 6;/        { module->interval.clipped = $none; return 6; }/"
mutant 'clipped: an empty block begins the counts anew' feed.c "s/^    while \(done < count\)/    if (count == 0) module->interval.clipped = $none;\n&/"
mutant 'clipped: a refused block'"'"'s samples counted' feed.c \
    's/^        return 6;/        { struct interval more = module->interval; const int32_t *const raw[SLICES] = {slice[V].sample, slice[S1].sample, slice[S3].sample}; accumulate(\&more, \&module->card, module->source, module->previous, raw, count, alarms_room(\&module->alarms, count)); module->interval.clipped = more.clipped; return 6; }/'
mutant 'clipped: a hold answers them only where there are any' console.c \
    '/^static void put_held/,/^\}/s|^    for \(|    if (held->clipped.of[V] + held->clipped.of[S1] + held->clipped.of[S3] > 0)\n    &|'
mutant 'clipped: a hold answers their sum' console.c \
    's|printf\(" %" PRId64, held->clipped.of\[which\]\);|if (which == V) printf(" %" PRId64, held->clipped.of[V] + held->clipped.of[S1] + held->clipped.of[S3]);|'
mutant 'clipped: a hold answers none' console.c 's|printf\(" %" PRId64, held->clipped.of\[which\]\);|{}|'
mutant 'clipped: the help without them' words.c 's|serial, how many of its samples of V, "|serial, "|; s|^    "of S1 and of S3 were clipped, and both|    "and both|'
