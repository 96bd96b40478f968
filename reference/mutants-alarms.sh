# mutants-alarms.sh: the wrong rules of sag and surge (document 02, A3); mutants reads it.
# shellcheck shell=bash disable=SC2154
waits='alarms->uncompared = \(size_t\)w - 1;'
begin='module->alarms.sum = 0; module->alarms.uncompared = module->alarms.half_cycle - 1; memset(module->alarms.square, 0, sizeof module->alarms.square);'
clear='module->alarms.set = 0;'
string='s|^#include "module.h"|#include <string.h>\n&|'
shown='alarms->set = .*'
refused='s|^    return refusal;|    if (refusal != 0)'
lowest='int64_t setting\[NUMBERS_MOST - 2 - SLOTS\] = \{1, 0, 0, 0, 0\};'

# Which samples
mutant 'alarms: compared from the first sample on' alarms.c "s|$waits|alarms->uncompared = 0;|"
mutant 'alarms: compared one sample too early' alarms.c "s|$waits|alarms->uncompared = w > 1 ? (size_t)w - 2 : 0;|"
mutant 'alarms: compared one sample too late' alarms.c "s|$waits|alarms->uncompared = (size_t)w;|"
mutant 'alarms: sag compared from the first sample on' alarms.c 's|^        alarms->sum \+= newest\[k\];|        { alarms->sum += newest[k]; show(alarms, bits(alarms->sum < alarms->sag_level, false), bits(alarms->sum < alarms->sag_level, false)); }|'
mutant 'alarms: surge compared from the first sample on' alarms.c 's|^        alarms->sum \+= newest\[k\];|        { alarms->sum += newest[k]; show(alarms, bits(false, alarms->sum > alarms->surge_level), bits(false, alarms->sum > alarms->surge_level)); }|'
mutant 'alarms: compared from the first interval'"'"'s close on' feed.c 's|^    alarms_follow|    if (!module->some_closed \&\& module->interval.samples != module->samples) module->alarms.uncompared += count;\n&|'
mutant 'alarms: W - 1 samples' alarms.c 's|w = settings->half_cycle, sag|w = settings->half_cycle > 1 ? settings->half_cycle - 1 : 1, sag|'
mutant 'alarms: W + 1 samples' alarms.c 's|w = settings->half_cycle, sag|w = settings->half_cycle < 512 ? settings->half_cycle + 1 : 512, sag|'
mutant 'alarms: W - 1 samples held against W levels' alarms.c 's|alarms->half_cycle = \(size_t\)w;|alarms->half_cycle = (size_t)w - (w > 1);|'
mutant 'alarms: W + 1 samples held against W levels' alarms.c 's|alarms->half_cycle = \(size_t\)w;|alarms->half_cycle = (size_t)w + (w < 512);|'
mutant 'alarms: at most 511 samples' alarms.c 's|w = settings->half_cycle, sag|w = settings->half_cycle > 511 ? 511 : settings->half_cycle, sag|'
mutant 'alarms: at most 256 samples' alarms.c 's|w = settings->half_cycle, sag|w = settings->half_cycle > 256 ? 256 : settings->half_cycle, sag|'
mutant 'alarms: no sample is ever taken off' alarms.c 's|newest\[k\] - oldest\[k\]|newest[k]|'
mutant 'alarms: the squares before a long block lost' alarms.c 's|^        memmove\(.*|        memset(alarms->square, 0,|'
mutant 'alarms: the window begins anew when it is full' alarms.c 's|^    for \(size_t k = 0; k < count; k\+\+\) \{|    if (alarms->uncompared == 0 \&\& count >= alarms->half_cycle) { above_sag -= alarms->sum; below_surge += alarms->sum; }\n&|'

# Which squares
mutant 'alarms: raw voltages' feed.c 's|square\[k\] = v \* v;|square[k] = (int64_t)raw[k] * raw[k];|'
mutant 'alarms: voltages before the gain' feed.c 's|square\[k\] = v \* v;|square[k] = (raw[k] - voffs) * (raw[k] - voffs);|'
mutant 'alarms: voltages before the offset' feed.c 's|square\[k\] = v \* v;|{ int64_t u = corrected(raw[k], 0, vgain).value; square[k] = u * u; }|'
mutant 'alarms: voltages before clipping' feed.c 's|square\[k\] = v \* v;|{ int64_t u = halved_down((raw[k] - voffs) * vgain, 21); square[k] = u * u; }|'
mutant 'alarms: clipped voltages left out' feed.c 's|square\[k\] = v \* v;|square[k] = volts.outside ? 0 : v * v;|'
mutant 'alarms: corrected toward zero' feed.c 's|square\[k\] = v \* v;|{ int64_t u = clipped((raw[k] - voffs) * vgain / 2097152); square[k] = u * u; }|'
mutant 'alarms: -8388608 as 8388607' feed.c 's|square\[k\] = v \* v;|square[k] = at_most(size_of(v), HIGHEST) * at_most(size_of(v), HIGHEST);|'
mutant 'alarms: sizes for squares' feed.c 's|square\[k\] = v \* v;|square[k] = size_of(v);|'
mutant 'alarms: sizes for squares, and held against W times the level' feed.c 's|square\[k\] = v \* v;|square[k] = size_of(v);|' \
    alarms.c 's|w \* sag \* sag|w * sag|; s|w \* surge \* surge|w * surge|'
mutant 'alarms: only voltages above 0' feed.c 's|square\[k\] = v \* v;|square[k] = v > 0 ? v * v : 0;|'
mutant 'alarms: the current' feed.c \
    's|^    interval->samples \+= .*|    for (size_t k = 0; k < count; k++) { int64_t i = corrected(raw[S1][k], card->field[IOFFS], card->field[IGAIN]).value; square[k] = i * i; }\n&|'
mutant 'alarms: the current behind PHASE' feed.c 's|^    interval->samples \+= .*|    for (size_t k = 0; k < count; k++) square[k] = (int64_t)stretch.value[S1][k] * stretch.value[S1][k];\n&|'
mutant 'alarms: the products' feed.c 's|^    interval->samples \+= .*|    for (size_t k = 0; k < count; k++) square[k] = (int64_t)stretch.value[V][k] * stretch.value[S1][k];\n&|'
mutant 'alarms: squares in 32 bits' feed.c 's|square\[k\] = v \* v;|square[k] = (uint32_t)(v * v);|'
mutant 'alarms: squares up to 2^46 - 1' feed.c 's|square\[k\] = v \* v;|square[k] = at_most(v * v, (INT64_C(1) << 46) - 1);|'
again='static int64_t old[512], n; if (!module->has_previous) n = 0; '
again+='if (module->interval.samples == 0 \&\& module->card_waits) for (int64_t j = 1; j <= 512 \&\& j <= n; j++) '
again+='{ int64_t u = corrected(old[(n - j) % 512], module->waiting.field[VOFFS], module->waiting.field[VGAIN]).value, *s = square - j;'
taken='for (size_t k = 0; k < count; k++) old[n++ % 512] = raw[V][k];'
mutant 'alarms: the oldest worked again with the card in force' feed.c "s|^    take_waiting_card\(module\);|    $again *s = u * u; } $taken\n&|"
mutant 'alarms: the whole window worked again with the card in force' feed.c \
    "s|^    take_waiting_card\(module\);|    $again if (j <= (int64_t)module->alarms.half_cycle) module->alarms.sum += u * u - *s; *s = u * u; } $taken\n&|"
mutant 'alarms: worked with the card that waits' feed.c \
    's|^    alarms_follow|    if (module->card_waits) for (size_t k = 0; k < count; k++) { int64_t u = corrected(raw[V][k], module->waiting.field[VOFFS], module->waiting.field[VGAIN]).value; square[k] = u * u; }\n&|'

# The comparison
mutant 'alarms: sag at the level too' alarms.c 's/sags \|= above_sag;/sags |= above_sag - (alarms->sag_level != 0);/; s|bits\(above_sag < 0,|bits(above_sag < (alarms->sag_level != 0),|'
mutant 'alarms: surge at the level too' alarms.c 's/surges \|= below_surge;/surges |= below_surge - 1;/; s|below_surge < 0\)\);|below_surge <= 0));|'
mutant 'alarms: sag one below the level not' alarms.c 's/sags \|= above_sag;/sags |= above_sag + 1;/; s|bits\(above_sag < 0,|bits(above_sag < -1,|'
mutant 'alarms: surge one above the level not' alarms.c 's/surges \|= below_surge;/surges |= below_surge >> 1 << 1 == -2 ? below_surge + 1 : below_surge;/; s|below_surge < 0\)\);|below_surge < -1));|'
mutant 'alarms: VSAG 0 is always sag' alarms.c 's|= w \* sag \* sag;|= sag == 0 ? INT64_MAX / 2 : w * sag * sag;|'
mutant 'alarms: VSAG 0 is sag where nothing is' alarms.c 's/sags \|= above_sag;/sags |= above_sag - (alarms->sag_level == 0);/; s|bits\(above_sag < 0,|bits(above_sag < (alarms->sag_level == 0),|'
mutant 'alarms: VSURGE 0 is surge' alarms.c 's|surge == 0 \? INT64_MAX : ||'
mutant 'alarms: VSAG 1 is off' alarms.c 's|= w \* sag \* sag;|= sag == 1 ? 0 : w * sag * sag;|'
mutant 'alarms: VSURGE 1 is off' alarms.c 's|surge == 0 \?|surge <= 1 ?|'
mutant 'alarms: no sag where VSURGE is off' alarms.c 's|= w \* sag \* sag;|= surge == 0 ? 0 : w * sag * sag;|'
mutant 'alarms: no surge where VSAG is off' alarms.c 's/surge == 0 \?/surge == 0 || sag == 0 ?/'
mutant 'alarms: no surge where there is sag' alarms.c 's|below_surge < 0\)\);|below_surge < 0 \&\& above_sag >= 0));|'
mutant 'alarms: sag and surge exchanged' alarms.c 's|sag = settings->sag, surge = settings->surge|sag = settings->surge, surge = settings->sag|'
mutant 'alarms: the sum held against a level squared, not W times' alarms.c 's|w \* sag \* sag|sag * sag|; s|w \* surge \* surge|surge * surge|'
mutant 'alarms: the sum held against W times a level, not squared' alarms.c 's|w \* sag \* sag|w * sag|; s|w \* surge \* surge|w * surge|'
mutant 'alarms: levels in 32 bits' alarms.c 's|= w \* sag \* sag;|= (uint32_t)(w * sag * sag);|'
mutant 'alarms: surge by the mean, rounded down' alarms.c 's|: w \* surge \* surge;|: w * surge * surge + w - 1;|'
mutant 'alarms: surge by the root, rounded down' alarms.c 's|: w \* surge \* surge;|: w * (surge + 1) * (surge + 1) - 1;|'
mutant 'alarms: sag by the root, rounded up' alarms.c 's|= w \* sag \* sag;|= sag == 0 ? 0 : w * (sag - 1) * (sag - 1) + 1;|'
mutant 'alarms: the sum kept in eights' alarms.c 's|int64_t change = newest|int64_t change = (newest|; s|oldest\[k\];|oldest[k]) / 8 * 8;|'

# What is set and stays
mutant 'alarms: none is sticky' alarms.c 's|alarms->sticky = settings->sticky;|alarms->sticky = 0;|'
mutant 'alarms: all are sticky' alarms.c 's/alarms->sticky = settings->sticky;/alarms->sticky = SAG | SURGE;/'
mutant 'alarms: sticky and not sticky exchanged' alarms.c 's/alarms->sticky = settings->sticky;/alarms->sticky = settings->sticky ^ (SAG | SURGE);/'
mutant 'alarms: both sticky where one is' alarms.c 's/alarms->sticky = settings->sticky;/alarms->sticky = settings->sticky ? SAG | SURGE : 0;/'
mutant 'alarms: the bits of the sticky mask exchanged' alarms.c 's/alarms->sticky = settings->sticky;/alarms->sticky = (settings->sticky \& SAG ? SURGE : 0) | (settings->sticky \& SURGE ? SAG : 0);/'
mutant 'alarms: a sticky one is what the last block had' alarms.c "s/$shown/alarms->set = (any \& alarms->sticky) | (last \& ~alarms->sticky);/"
mutant 'alarms: a sticky one is set by the last comparison alone' alarms.c "s/$shown/alarms->set = ((alarms->set | last) \& alarms->sticky) | (last \& ~alarms->sticky);/"
mutant 'alarms: another one is set by any comparison of the block' alarms.c "s/$shown/alarms->set = ((alarms->set | any) \& alarms->sticky) | (any \& ~alarms->sticky);/"
mutant 'alarms: another one is kept where it was set before' alarms.c "s/$shown/alarms->set = ((alarms->set | any) \& alarms->sticky) | ((alarms->set | last) \& ~alarms->sticky);/"
mutant 'alarms: a sticky surge ends a sticky sag' alarms.c "s/$shown/& if (any == SURGE) alarms->set \&= ~SAG;/"
mutant 'alarms: compared at an interval'"'"'s last sample alone' feed.c 's|^    alarms_follow.*|    int64_t was = module->alarms.set;\n&\n    if (module->interval.samples != module->samples) module->alarms.set = was;|'
mutant 'alarms: those at the close' module.h 's|^    struct clippings clipped; /\* no registers.*|&\n    int64_t alarms;|' \
    close.c 's|^    module->closed.clipped = .*|&\n    module->closed.alarms = module->alarms.set;|' module.c 's|closed->clipped, module->alarms.set|closed->clipped, closed->alarms|'
mutant 'alarms: those of the port'"'"'s hold before, if no interval closed since' module.c \
    's|^    module->port\[port\].hold = .*|    static int64_t was[2]; if (!module->port[port].held \|\| module->port[port].hold.number != closed->number) was[port] = module->alarms.set;\n&|; s|closed->clipped, module->alarms.set|closed->clipped, was[port]|'
mutant 'alarms: all since the last close' close.c 's|^    module->closed.clipped = .*|&\n    module->alarms.set \&= ~(int64_t)(SAG \| SURGE);|' \
    alarms.c 's/^    alarms->set = .*/    alarms->set |= any;/'

# What begins the window anew
mutant 'alarms: a close empties the window' close.c "s|^    module->closed.clipped = .*|&\n    $begin|"
mutant 'alarms: a block empties the window' feed.c "$string; s|^    while \(done < count\)|    if (count > 0) { $begin }\n&|"
mutant 'alarms: an empty block empties the window' feed.c "$string; s|^    while \(done < count\)|    if (count == 0) { $begin }\n&|"
mutant 'alarms: a refused block empties the window' feed.c "$string; s|^        return 6;|        { $begin return 6; }|"
mutant 'alarms: a new card empties the window' feed.c "$string; s|^        module->has_card = true;|&\n        $begin|"
mutant 'alarms: a commit empties the window' module.c "s|^    module->card_waits = true;|&\n    $begin|"
mutant 'alarms: a reset empties the window' module.c "s|^    module->alarms.set .*|&\n    $begin|"
mutant 'alarms: a reset of both empties the window' module.c "s/^    module->alarms.set .*/&\n    if (mask == (SAG | SURGE)) { $begin }/"
mutant 'alarms: a refused reset empties the window' module.c "/^int module_reset/,/^}/s|return 12;|{ $begin return 12; }|"
mutant 'alarms: a hold empties the window' module.c "s|^    module->port\[port\].held = true;|&\n    $begin|"
mutant 'alarms: a refused start empties the window' console.c "s|^#include <stdio.h>|&\n#include <string.h>|; $refused { $begin }\n&|"
mutant 'alarms: an accepted start keeps the window' console.c 's|^        \*module = fresh;|        { struct alarms was = module->alarms; *module = fresh; if (was.half_cycle == fresh.alarms.half_cycle) { int64_t sag = fresh.alarms.sag_level, surge = fresh.alarms.surge_level, sticky = fresh.alarms.sticky; module->alarms = was; module->alarms.sag_level = sag; module->alarms.surge_level = surge; module->alarms.sticky = sticky; module->alarms.set = 0; } }|'

# What clears an alarm
mutant 'alarms: a close clears them' close.c "s|^    module->closed.clipped = .*|&\n    $clear|"
mutant 'alarms: a block clears them' feed.c "s|^    while \(done < count\)|    if (count > 0) $clear\n&|"
mutant 'alarms: an empty block clears them' feed.c "s|^    while \(done < count\)|    if (count == 0) $clear\n&|"
mutant 'alarms: an empty block compares again' feed.c 's|^    while \(done < count\)|    if (count == 0 \&\& module->alarms.uncompared == 0 \&\& module->has_previous) module->alarms.set = (module->alarms.set \& module->alarms.sticky) \| (module->alarms.sum < module->alarms.sag_level ? SAG : 0) \| (module->alarms.sum > module->alarms.surge_level ? SURGE : 0);\n&|'
mutant 'alarms: a refused block clears them' feed.c "s|^        return 6;|        { $clear return 6; }|"
mutant 'alarms: a new card clears them' feed.c "s|^        module->has_card = true;|&\n        $clear|"
mutant 'alarms: a commit clears them' module.c "s|^    module->card_waits = true;|&\n    $clear|"
mutant 'alarms: a hold clears them' module.c "s|^    \*held = \(struct held\).*|&\n    $clear|"
mutant 'alarms: a hold clears the sticky ones' module.c "s|^    \*held = \(struct held\).*|&\n    module->alarms.set \&= ~module->alarms.sticky;|"
mutant 'alarms: a hold compares again' module.c 's|^    \*held = \(struct held\)|    if (module->alarms.uncompared == 0) module->alarms.set = (module->alarms.set \& module->alarms.sticky) \| (module->alarms.sum < module->alarms.sag_level ? SAG : 0) \| (module->alarms.sum > module->alarms.surge_level ? SURGE : 0);\n&|'
mutant 'alarms: a read clears them' console.c 's|^        return module_read|        module->alarms.set = 0; return module_read|'
mutant 'alarms: a refused start clears them' console.c "$refused $clear\n&|"
mutant 'alarms: an accepted start keeps them' console.c 's|\*module = fresh;|{ fresh.alarms.set = module->alarms.set; *module = fresh; }|'
mutant 'alarms: an accepted start keeps the sticky ones' console.c 's|\*module = fresh;|{ fresh.alarms.set = module->alarms.set \& fresh.alarms.sticky; *module = fresh; }|'

# Reset
reset='/^int module_reset/,/^\}/'
clears='module->alarms.set &= ~mask;'
mutant 'reset: a sticky alarm stays' module.c "s|$clears|module->alarms.set \&= ~mask \| module->alarms.sticky;|"
mutant 'reset: only sticky alarms' module.c "s|$clears|module->alarms.set \&= ~(mask \& module->alarms.sticky);|"
mutant 'reset: for good' module.c "s|$clears|& if (mask \& SAG) module->alarms.sag_level = 0; if (mask \& SURGE) module->alarms.surge_level = INT64_MAX;|"
mutant 'reset: for good where the alarm was set' module.c "s|$clears|if (mask \& SAG \& module->alarms.set) module->alarms.sag_level = 0; if (mask \& SURGE \& module->alarms.set) module->alarms.surge_level = INT64_MAX; &|"
mutant 'reset: until the comparison was false once' alarms.h 's|^    size_t half_cycle;|&\n    int64_t muted;|' \
    module.c "s|$clears|& module->alarms.muted \|= mask;|" alarms.c "s/^    $shown/    alarms->muted \&= last; any \&= ~alarms->muted; last \&= ~alarms->muted;\n&/"
mutant 'reset: until the interval ends' alarms.h 's|^    size_t half_cycle;|&\n    int64_t muted;|' \
    module.c "s|$clears|& module->alarms.muted \|= mask;|" alarms.c "s/^    $shown/    any \&= ~alarms->muted; last \&= ~alarms->muted;\n&/" close.c 's|^    module->closed.clipped = .*|&\n    module->alarms.muted = 0;|'
mutant 'reset: unnamed alarms too' module.c "s|$clears|if (mask != 0) module->alarms.set = 0;|"
mutant 'reset: a mask of 0 clears both' module.c "s|$clears|module->alarms.set \&= mask == 0 ? 0 : ~mask;|"
mutant 'reset: all but the named ones' module.c "s|$clears|module->alarms.set \&= mask;|"
mutant 'reset: one alarm at a time' module.c "s|$clears|module->alarms.set \&= mask == (SAG \| SURGE) ? ~(int64_t)SAG : ~mask;|"
mutant 'reset: the alarms named are turned over' module.c "s|$clears|module->alarms.set ^= mask;|"
mutant 'reset: the bits exchanged' module.c "s|$clears|module->alarms.set \&= ~((mask \& SAG ? SURGE : 0) \| (mask \& SURGE ? SAG : 0));|"
mutant 'reset: the named alarms are sticky no more' module.c "s|$clears|& module->alarms.sticky \&= ~mask;|"
mutant 'reset: all bits exchanged, 512 for sag' alarms.h 's/SAG = 1 << 21, SURGE = 1 << 9/SAG = 1 << 9, SURGE = 1 << 21/'
mutant 'reset: bits 20 and 8' alarms.h 's/SAG = 1 << 21, SURGE = 1 << 9/SAG = 1 << 20, SURGE = 1 << 8/'
mutant 'reset: bits 22 and 10' alarms.h 's/SAG = 1 << 21, SURGE = 1 << 9/SAG = 1 << 22, SURGE = 1 << 10/'
mutant 'reset: nothing' module.c "s|$clears||"
mutant 'reset: any mask taken' module.c "$reset s|if .*|if (false)|"
mutant 'reset: any mask taken that names one of the two' module.c "$reset s/if \(.*/if (!alarm_mask_allowed(mask) \&\& (mask \& (SAG | SURGE)) == 0)/"
mutant 'reset: any mask of 24 bits taken' module.c "$reset s/if \(.*/if (mask < 0 || mask >= 16777216)/"
mutant 'reset: a mask cut to 32 bits' module.c "$reset s|alarm_mask_allowed\(mask\)|alarm_mask_allowed((int32_t)mask)|"
mutant 'reset: a mask cut to 24 bits' module.c "$reset s|alarm_mask_allowed\(mask\)|alarm_mask_allowed(mask \& 0xFFFFFF)|"
mutant 'reset: a mask'"'"'s sign lost' module.c "$reset s|alarm_mask_allowed\(mask\)|alarm_mask_allowed(mask == INT64_MIN ? mask : mask < 0 ? -mask : mask)|"
mutant 'reset: a mask of 0 refused' module.c "$reset s/if \(.*/if (mask == 0 || !alarm_mask_allowed(mask))/"
mutant 'reset: a mask of both refused' module.c "$reset s/if \(.*/if (mask == (SAG | SURGE) || !alarm_mask_allowed(mask))/"
mutant 'reset: a refused one clears the named alarms' module.c "$reset s|return 12;|{ module->alarms.set \&= ~mask; return 12; }|"
mutant 'reset: refused with 7' module.c "$reset s|return 12;|return 7;|"
mutant 'reset: refused before any start' module.c "$reset s/if \(.*/if (!alarm_mask_allowed(mask) || !module->some_closed)/"
mutant 'reset: ends the running interval' module.c "s|$clears|& memset(\&module->interval, 0, sizeof module->interval);|"
mutant 'reset: ends the holds' module.c "s|$clears|& module->port[0].held = module->port[1].held = false;|"
mutant 'reset: its mask may be left out' line.c 's|RESET, "n"|RESET, "o"|'
mutant 'reset: more items taken' line.c 's|RESET, "n"|RESET, "no"|'
mutant 'reset: a name taken' line.c 's|RESET, "n"|RESET, "b"|'

# A start's settings
mutant 'alarms: W 0 taken' alarms.c 's|settings->half_cycle >= 1|settings->half_cycle >= 0|'
mutant 'alarms: W 513 taken' alarms.c 's|settings->half_cycle <= HALF|settings->half_cycle <= 1 + HALF|'
mutant 'alarms: W 512 refused' alarms.c 's|settings->half_cycle <= HALF|settings->half_cycle < HALF|'
mutant 'alarms: W cut to 32 bits' alarms.c 's|settings->half_cycle >= 1 && settings->half_cycle <=|(int32_t)settings->half_cycle >= 1 \&\& (int32_t)settings->half_cycle <=|; s|int64_t w = settings->half_cycle|int64_t w = (int32_t)settings->half_cycle|'
mutant 'alarms: W cut to 16 bits' alarms.c 's|settings->half_cycle >= 1 && settings->half_cycle <=|(int16_t)settings->half_cycle >= 1 \&\& (int16_t)settings->half_cycle <=|; s|int64_t w = settings->half_cycle|int64_t w = (int16_t)settings->half_cycle|'
mutant 'alarms: VSAG 8388608 taken' alarms.c 's|settings->sag <= HIGHEST|settings->sag <= HIGHEST + 1|'
mutant 'alarms: VSURGE 8388608 taken' alarms.c 's|settings->surge <= HIGHEST|settings->surge <= HIGHEST + 1|'
mutant 'alarms: VSAG 8388607 refused' alarms.c 's|settings->sag <= HIGHEST|settings->sag < HIGHEST|'
mutant 'alarms: VSAG -1 taken' alarms.c 's|settings->sag >= 0|settings->sag >= -1|'
mutant 'alarms: VSURGE -1 taken' alarms.c 's|settings->surge >= 0|settings->surge >= -1|'
mutant 'alarms: VSAG above VSURGE refused' alarms.c 's/^           alarm_mask_allowed\(settings->sticky\);/           (settings->sag <= settings->surge || settings->surge == 0) \&\&\n&/'
mutant 'alarms: W above N refused' module.c 's/if \(!alarm_settings_allowed\(settings\)/if (settings->half_cycle > samples || !alarm_settings_allowed(settings)/'
mutant 'alarms: any sticky mask taken' alarms.c 's/^           alarm_mask_allowed\(settings->sticky\);/           true;/'
mutant 'alarms: a sticky mask cut to 32 bits' alarms.c 's/alarm_mask_allowed\(settings->sticky\);/alarm_mask_allowed((int32_t)settings->sticky);/'
mutant 'alarms: a sticky mask of 24 bits taken' alarms.c 's/alarm_mask_allowed\(settings->sticky\);/(uint64_t)settings->sticky < 16777216;/'
mutant 'alarms: a sticky mask with another bit refused with 12' module.c 's|if \(!alarm_settings_allowed\(settings\)|if (!alarm_mask_allowed(settings->sticky)) return 12;\n    &|'
mutant 'alarms: a refused start takes the sticky mask' console.c "$refused module->alarms.sticky = settings.sticky \& (SAG \| SURGE);\n&|"
mutant 'alarms: a refused start ends the levels' console.c "$refused { module->alarms.sag_level = 0; module->alarms.surge_level = INT64_MAX; }\n&|"
mutant 'alarms: a refused start takes W' console.c "$refused if (settings.half_cycle > 0 \&\& settings.half_cycle < 513) module->alarms.half_cycle = (size_t)settings.half_cycle;\n&|"
mutant 'alarms: a setting left out stays as it was' console.c "s|$lowest|static int64_t setting[5] = {1, 0, 0, 0, 0};|"
mutant 'alarms: W left out is 0' console.c "s|$lowest|int64_t setting[5] = {0, 0, 0, 0, 0};|"
mutant 'alarms: VSAG left out is 1' console.c "s|$lowest|int64_t setting[5] = {1, 1, 0, 0, 0};|"
mutant 'alarms: VSURGE left out is 8388607' console.c "s|$lowest|int64_t setting[5] = {1, 0, 8388607, 0, 0};|"
mutant 'alarms: a sticky mask left out has both' console.c "s|$lowest|int64_t setting[5] = {1, 0, 0, 2097664, 0};|"
mutant 'alarms: all settings or none' line.c 's|"nnwwwwwwooooo"|"nnwwwwwwonnnn"|'
mutant 'alarms: no setting may be left out' line.c 's|"nnwwwwwwooooo"|"nnwwwwwwnnnnn"|'
mutant 'alarms: the sticky mask and the configuration not read' line.c 's|"nnwwwwwwooooo"|"nnwwwwwwooo"|'
mutant 'alarms: a setting more' line.c 's|"nnwwwwwwooooo"|"nnwwwwwwoooooo"|' line.h 's|NUMBERS_MOST = 13|NUMBERS_MOST = 14|'
mutant 'alarms: a space at a start'"'"'s end taken' line.c "s/^        if \(items\[k\] == 'o' && at_end\(rest\)\)/        if (items[k] == 'o' \&\& rest->end - rest->at == 1 \&\& take_byte(rest, ' '))\n            break;\n&/"
mutant 'alarms: an empty setting is left out' line.c "s/^    if \(is_number\(item, number\)\)/    if (what == 'o' \&\& item.length == 0)\n        return (*number = 0, NONE);\n&/"
mutant 'alarms: VSAG and VSURGE exchanged in a start' console.c 's|\{setting\[0\], setting\[1\], setting\[2\]|{setting[0], setting[2], setting[1]|'
mutant 'alarms: the thresholds before W' console.c 's|\{setting\[0\], setting\[1\], setting\[2\]|{setting[2] ? setting[2] : 1, setting[0], setting[1]|'

# What a hold says
mutant 'alarms: a hold answers none' console.c 's|^    fputs\(held->alarms & .*||'
mutant 'alarms: - and the words exchanged' console.c 's|\? " SAG" : " -"|? " -" : " SAG"|; s|\? " SURGE" : " -"|? " -" : " SURGE"|'
mutant 'alarms: - of a sag that is set' console.c 's|\? " SAG" : " -"|? " -" : " SAG"|'
mutant 'alarms: nothing for one that is clear' console.c 's|\? " SAG" : " -"|? " SAG" : ""|; s|\? " SURGE" : " -"|? " SURGE" : ""|'
mutant 'alarms: one - for two that are clear' console.c 's|fputs\(held->alarms & SURGE \? " SURGE" : " -"|fputs(held->alarms \& SURGE ? " SURGE" : held->alarms \& SAG ? " -" : ""|'
mutant 'alarms: surge before sag' console.c 's|fputs\(held->alarms & SAG .*|fputs(held->alarms \& SURGE ? " SURGE" : " -", stdout); fputs(held->alarms \& SAG ? " SAG" : " -", stdout);|; s|^    fputs\(held->alarms & SURGE.*||'
mutant 'alarms: numbers for words' console.c 's|\? " SAG" : " -"|? " 1" : " 0"|; s|\? " SURGE" : " -"|? " 1" : " 0"|'
mutant 'alarms: the words exchanged' console.c 's|\? " SAG"|? " X"|; s|\? " SURGE"|? " SAG"|; s|\? " X"|? " SURGE"|'
mutant 'alarms: the help without reset' words.c 's|^    "# reset MASK.*||'
mutant 'alarms: the help without the settings' words.c 's| \[W \[VSAG \[VSURGE \[STICKY \[CONFIG\]\]\]\]\]||'
mutant 'alarms: the words of 12 of a field alone' words.c "s|a value outside its range|a value outside its field's range|"
