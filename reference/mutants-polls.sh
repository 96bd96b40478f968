# mutants-polls.sh: the wrong rules of the old serial polls (document 02, A4); mutants reads it.
# shellcheck shell=bash disable=SC2154
frame='/^static enum code judge_frame/,/^\}/'
first='/^static enum code judge_frame/,/^\}/s|^    if \(length < 2 .*|'
taken='/^static enum code take_command/,/^\}/'
reading='/^static enum code read_bytes/,/^\}/'
poll='/^int module_poll/,/^\}/'
sends='^    if \(reply->length > 1\).*'
clamped='&\n    if (work->at > work->end) work->at = work->end;'

# Header, count and sum
mutant 'polls: the checksum not checked' packet.c "$frame s/if \(packet\[length - 1\] != .*/if (false)/"
mutant 'polls: the checksum without the header' packet.c "$frame s/sum_of\(packet, length - 1\)/sum_of(packet + 1, length - 2)/"
mutant 'polls: the checksum of the payload alone' packet.c "$frame s/sum_of\(packet, length - 1\)/sum_of(packet + 2, length - 3)/"
mutant 'polls: the checksum without its sign' packet.c "$frame s/sum_of\(packet, length - 1\)/(256 - sum_of(packet, length - 1)) % 256/"
mutant 'polls: the checksum modulo 255' packet.c 's/% 256;/% 255;/'
mutant 'polls: the checksum by seven bits' packet.c "$frame s/packet\[length - 1\] != sum_of\(packet, length - 1\)/((packet[length - 1] ^ sum_of(packet, length - 1)) \& 127) != 0/"
mutant 'polls: the checksum by its upper bits' packet.c "$frame s/packet\[length - 1\] != sum_of\(packet, length - 1\)/((packet[length - 1] ^ sum_of(packet, length - 1)) \& 254) != 0/"
mutant 'polls: bits joined for a sum' packet.c 's/sum = \(sum \+ byte\[k\]\) % 256;/sum ^= byte[k];/'
mutant 'polls: a wrong checksum NACK' packet.c "$frame s/return CHECKSUM_FAILED;/return NACK;/"
mutant 'polls: a wrong checksum silent' packet.c "$frame s/return CHECKSUM_FAILED;/return SILENT;/"
mutant 'polls: the checksum before more bytes' packet.c "$frame s/^    if \(length > packet\[1\]\)/    if (packet[length - 1] != sum_of(packet, length - 1))\n        return CHECKSUM_FAILED;\n&/"
mutant 'polls: the checksum at the counted place before more bytes' packet.c "$frame s/^    if \(length > packet\[1\]\)/    if (packet[packet[1] - 1] != sum_of(packet, packet[1] - 1))\n        return CHECKSUM_FAILED;\n&/"
mutant 'polls: no command before the checksum' packet.c "$frame s/^    if \(packet\[length - 1\] != /    if (length == FRAME)\n        return NACK;\n&/"
mutant 'polls: any header taken' packet.c "$frame s/packet\[0\] != HEADER/false/"
mutant 'polls: a header of seven bits' packet.c "$frame s/packet\[0\] != HEADER/(packet[0] \& 127) != (HEADER \& 127)/"
mutant 'polls: a wrong header NACK' packet.c "$first    if (length > 0 \&\& packet[0] != HEADER)\n        return NACK;\n&|"
mutant 'polls: fewer than two bytes NACK' packet.c "$first    if (length < 2)\n        return NACK;\n&|"
mutant 'polls: an empty packet NACK' packet.c "$first    if (length == 0)\n        return NACK;\n&|"
mutant 'polls: fewer bytes than the count NACK' packet.c "$first    if (length > 2 \&\& packet[0] == HEADER \&\& packet[1] > length)\n        return NACK;\n&|"
mutant 'polls: fewer bytes than the count judged as they are' packet.c "$frame s/ \|\| length < packet\[1\]\)/ || length < FRAME)/"
mutant 'polls: one byte less than the count taken' packet.c "$frame s/length < packet\[1\]\)/length + 1 < packet[1])/"
mutant 'polls: a count below 3 NACK' packet.c "$first    if (length > 1 \&\& packet[0] == HEADER \&\& packet[1] < FRAME)\n        return NACK;\n&|"
mutant 'polls: a count of 2 taken' packet.c "$frame s/packet\[1\] < FRAME/packet[1] < FRAME - 1/"
mutant 'polls: a count of 3 silent' packet.c "$frame s/packet\[1\] < FRAME/packet[1] <= FRAME/"
mutant 'polls: the count of the payload alone' packet.c "$frame s/length (<|>) packet\[1\]/length \1 packet[1] + 3u/"
mutant 'polls: the count without the header' packet.c "$frame s/length (<|>) packet\[1\]/length \1 packet[1] + 1u/"
mutant 'polls: more bytes than the count left out' packet.c 's/^    enum code code = judge_frame\(packet, length\);/    if (length > 2 \&\& packet[0] == HEADER \&\& packet[1] >= FRAME \&\& length > packet[1])\n        length = packet[1];\n&/'
mutant 'polls: one byte more than the count taken' packet.c "$frame s/if \(length > packet\[1\]\)/if (length > packet[1] + 1u)/"
mutant 'polls: more bytes than the count NACK' packet.c "$frame s/return BUFFER_OVERFLOW;/return NACK;/"
mutant 'polls: more bytes than the count silent' packet.c "$frame s/return BUFFER_OVERFLOW;/return SILENT;/"
mutant 'polls: more bytes than the count a wrong checksum' packet.c "$frame s/return BUFFER_OVERFLOW;/return CHECKSUM_FAILED;/"
mutant 'polls: no command acknowledged' packet.c "$frame s/length == FRAME \? NACK/length == FRAME ? GOES_ON/"
mutant 'polls: no command silent' packet.c "$frame s/length == FRAME \? NACK/length == FRAME ? SILENT/"
mutant 'polls: no command not implemented' packet.c "$frame s/length == FRAME \? NACK/length == FRAME ? NOT_IMPLEMENTED/"
mutant 'polls: the sum is a command' packet.c 's/packet \+ length - 1;/packet + length;/'
mutant 'polls: the count is a command' packet.c 's/work.at = packet \+ 2;/work.at = packet + 1;/'
mutant 'polls: the last command not taken' packet.c 's/packet \+ length - 1;/packet + length - 2;/; s/work.at != work.end/work.at < work.end/'

# Selecting
mutant 'polls: our device is 0' packet.c 's/OUR_ID = 1/OUR_ID = 0/'
mutant 'polls: our device is 2' packet.c 's/OUR_ID = 1/OUR_ID = 2/'
mutant 'polls: not selected when a packet comes' packet.c 's/\.selected = true/.selected = false/'
mutant 'polls: selected carried over to the next packet' packet.c 's/^    struct work work = .*/    static bool was = true;\n    struct work work = {.registers = registers, .slot = slot, .selected = was};/; s/^    if \(code == GOES_ON && work.data_length > DATA_MOST\)/    was = work.selected;\n&/'
mutant 'polls: not selected from another device'"'"'s packet on' packet.c 's/^    struct work work = .*/    static bool was = true;\n    struct work work = {.registers = registers, .slot = slot, .selected = was};/; s/^    if \(code == GOES_ON && work.data_length > DATA_MOST\)/    was = work.selected || code != SILENT;\n&/; s/^    if \(id > OUR_ID\)/    work->selected = id == OUR_ID;\n&/'
mutant 'polls: silent where not selected at the end' packet.c 's/^    if \(code == GOES_ON && work.data_length > DATA_MOST\)/    if (code == GOES_ON \&\& !work.selected)\n        code = SILENT;\n&/'
mutant 'polls: another device goes on, not selected' packet.c 's/^    if \(id > OUR_ID\)/    if (false)/'
mutant 'polls: another device goes on' packet.c '/^static enum code select_device/,/^\}/s/return SILENT;/return GOES_ON;/'
mutant 'polls: another device NACK' packet.c '/^static enum code select_device/,/^\}/s/return SILENT;/return NACK;/'
mutant 'polls: another device not implemented' packet.c '/^static enum code select_device/,/^\}/s/return SILENT;/return NOT_IMPLEMENTED;/'
mutant 'polls: another device behind data: the data' packet.c 's/^    if \(code == GOES_ON && work.data_length > DATA_MOST\)/    if (code == SILENT \&\& work.data_length > 0 \&\& work.selected)\n        code = GOES_ON;\n&/'
mutant 'polls: 0xCF selects 15' packet.c "$taken s/command == 0xCF \? parameter\[0\]/command == 0xCF ? 15/"
mutant 'polls: 0xCF with a number of four bits' packet.c "$taken s/command == 0xCF \? parameter\[0\]/command == 0xCF ? parameter[0] \& 15/"
mutant 'polls: 0xCF takes no number' packet.c 's/ \|\| command == 0xCF \|\| / || /'
mutant 'polls: 0xCF 00 selects' packet.c "$taken s/command == 0xCF \? parameter\[0\]/command == 0xCF \&\& parameter[0] == 0 ? 1 : command == 0xCF ? parameter[0]/"
mutant 'polls: 0xCE selects by a number' packet.c 's/command == 0xCF/command >= 0xCE \&\& command <= 0xCF/'
mutant 'polls: not selected again by 0xC1' packet.c 's/work->selected = id == OUR_ID;/work->selected = work->selected \&\& id == OUR_ID;/'
mutant 'polls: 0xC0 leaves it selected' packet.c 's/work->selected = id == OUR_ID;/work->selected = true;/'
mutant 'polls: 0xC0 silent' packet.c 's/^    if \(id > OUR_ID\)/    if (id != OUR_ID)/'
mutant 'polls: not selected, commands are done' packet.c "$taken s/if \(!work->selected\)/if (false)/"
mutant 'polls: not selected, commands are passed over' packet.c "$taken s/return SILENT;/{ if (whole) work->at += parameters_of(command); return GOES_ON; }/"
mutant 'polls: not selected NACK' packet.c "$taken s/return SILENT;/return NACK;/"
mutant 'polls: not selected and unknown: not implemented' packet.c "$taken s/^    if \(!work->selected\)/    if (!work->selected \&\& (command < 0xA0 || (command > 0xA3 \&\& command < 0xC0) || command > 0xEF))\n        return NOT_IMPLEMENTED;\n&/"
mutant 'polls: not selected and cut: NACK' packet.c "$taken s/^    if \(!work->selected\)/    if (!whole)\n        return NACK;\n&/"
mutant 'polls: not selected and a write: NACK' packet.c "$taken s/^    if \(!work->selected\)/    if (group == 0xD)\n        return NACK;\n&/"
mutant 'polls: 0xCF without a number silent' packet.c "$taken s/^    if \(!work->selected\)/    if (!work->selected || group == 0xC)/"

# Commands that are none
mutant 'polls: unknown commands NACK' packet.c "$taken s/return NOT_IMPLEMENTED;/return NACK;/"
mutant 'polls: unknown commands silent' packet.c "$taken s/return NOT_IMPLEMENTED;/return SILENT;/"
mutant 'polls: unknown commands passed over' packet.c "$taken s/return NOT_IMPLEMENTED;/return GOES_ON;/"
mutant 'polls: commands not used passed over' packet.c "$taken s/return NOT_IMPLEMENTED;/return command >= 0x80 \&\& (command < 0xA0 || command > 0xAF) ? GOES_ON : NOT_IMPLEMENTED;/"
mutant 'polls: invalid commands NACK, those not used not implemented' packet.c "$taken s/return NOT_IMPLEMENTED;/return command < 0x80 ? NACK : NOT_IMPLEMENTED;/"
mutant 'polls: reserved commands NACK' packet.c "$taken s/return NOT_IMPLEMENTED;/return command >= 0xA4 \&\& command <= 0xAF ? NACK : NOT_IMPLEMENTED;/"
mutant 'polls: 0x9F passed over' packet.c "$taken s/command < 0xA0/command < 0x9F/"
mutant 'polls: 0xA0 unknown' packet.c "$taken s/command < 0xA0/command < 0xA1/"
mutant 'polls: 0xA3 unknown' packet.c "$taken s/command > 0xA3/command > 0xA2/"
mutant 'polls: 0xA4 known' packet.c "$taken s/command > 0xA3/command > 0xA4/"
mutant 'polls: 0xBF known' packet.c "$taken s/command < 0xC0/command < 0xBF/"
mutant 'polls: 0xEF unknown' packet.c "$taken s/command > 0xEF/command > 0xEE/"
mutant 'polls: 0xF0 reads 0 bytes' packet.c "$taken s/command > 0xEF/command > 0xF0/; $taken s/if \(group == 0xE\)/if (command == 0xF0) return GOES_ON;\n    &/"
mutant 'polls: parameters that lack not implemented' packet.c "$taken s/if \(!whole \|\| /if (!whole)\n        return NOT_IMPLEMENTED;\n    if (/"
mutant 'polls: parameters that lack silent' packet.c "$taken s/if \(!whole \|\| /if (!whole)\n        return SILENT;\n    if (/"
mutant 'polls: a command whose parameters lack passed over' packet.c "$taken s/if \(!whole \|\| /if (!whole)\n        return work->at = work->end, GOES_ON;\n    if (/"
mutant 'polls: the sum is a parameter' packet.c "$taken s/bool whole = work->end - work->at >=/bool whole = work->end + 1 - work->at >=/; $taken s/^ +work->at \+= .*/$clamped/"
mutant 'polls: 0xA3 with one byte' packet.c "$taken s/(bool whole = .*)parameters_of\(command\);/\1(command == 0xA3 ? 1 : parameters_of(command));/; $taken s/^    work->at \+= .*/$clamped/"

# The address pointer
mutant 'polls: the pointer kept for the next packet' packet.c 's/^    struct work work = .*/    static int64_t kept;\n    struct work work = {.registers = registers, .slot = slot, .selected = true, .pointer = kept};/; s/^    if \(code == GOES_ON && work.data_length > DATA_MOST\)/    kept = work.pointer;\n&/'
mutant 'polls: the pointer kept behind a packet that sent' packet.c 's/^    struct work work = .*/    static int64_t kept;\n    struct work work = {.registers = registers, .slot = slot, .selected = true, .pointer = kept};/; s/^        put_data\(reply, &work\);/        (put_data(reply, \&work), kept = work.pointer);/'
mutant 'polls: the pointer begins at 0x100' packet.c 's/\.selected = true/.selected = true, .pointer = 256/'
mutant 'polls: the pointer begins at VA_RMS' packet.c 's/\.selected = true/.selected = true, .pointer = 0x81/'
mutant 'polls: the pointer not moved by a read' packet.c 's/^    work->pointer \+= 3;//; s/(register_read\(work->registers, work->slot, work->pointer), &value/\1 + moved, \&value/; s/read_one\(struct work \*work\)/read_one(struct work *work, int moved)/; s/^    for \(; count > 0; count -= 3\)/    for (int all = count; count > 0; count -= 3)/; s/!read_one\(work\)/!read_one(work, all - count)/'
mutant 'polls: the pointer moved by one word in all' packet.c "$reading s/^    for \(; count > 0.*/    for (int64_t was = work->pointer + 3; count > 0; work->pointer = count > 3 ? work->pointer : was, count -= 3)/"
mutant 'polls: the pointer moved by one' packet.c 's/work->pointer \+= 3;/work->pointer += 1;/'
mutant 'polls: the pointer is a word address' packet.c 's/work->slot, work->pointer, &value/work->slot, work->pointer * 3, \&value/; s/work->pointer \+= 3;/work->pointer += 1;/'
mutant 'polls: the pointer rounded down to a word' packet.c 's/work->slot, work->pointer, &value/work->slot, work->pointer - work->pointer % 3, \&value/'
mutant 'polls: the pointer moved by a read of 0 bytes' packet.c "$reading s/^    if \(count % 3 != 0\)/    if (count == 0)\n        work->pointer += 3;\n&/"
mutant 'polls: a selection clears the pointer' packet.c 's/work->selected = id == OUR_ID;/& work->pointer = 0;/'
mutant 'polls: 0xA0 leaves the upper byte' packet.c '/^static void set_pointer/,/^\}/s/^        high = 0;//'
mutant 'polls: 0xA0 leaves the lower byte' packet.c '/^static void set_pointer/,/^\}/s/^        low = 0;//'
mutant 'polls: 0xA1 clears the upper byte' packet.c 's/high = command == 0xA3 \? parameter\[1\] : high;/high = command == 0xA3 ? parameter[1] : 0;/'
mutant 'polls: 0xA2 clears the lower byte' packet.c 's/^        high = parameter\[0\];/        (high = parameter[0], low = 0);/'
mutant 'polls: 0xA1 and 0xA2 exchanged' packet.c 's/else if \(command == 0xA2\)/else if (command == 0xA1)/'
mutant 'polls: 0xA3 upper byte first' packet.c 's/^        low = parameter\[0\];/        low = parameter[command == 0xA3];/; s/command == 0xA3 \? parameter\[1\]/command == 0xA3 ? parameter[0]/'
mutant 'polls: 0xA3 leaves the upper byte' packet.c 's/high = command == 0xA3 \? parameter\[1\] : high;//'
mutant 'polls: the pointer of eight bits' packet.c 's/work->pointer = high \* 256 \+ low;/work->pointer = low;/'
mutant 'polls: the pointer of nine bits' packet.c 's/work->pointer = high \* 256 \+ low;/work->pointer = high % 2 * 256 + low;/'

# Writes
mutant 'polls: a write acknowledged' packet.c "$taken s/if \(!whole \|\| group == 0xD\)/if (group == 0xD)\n        return work->at = command == 0xD0 || work->end - work->at < command - 0xD0 ? work->end : work->at + command - 0xD0, GOES_ON;\n    if (!whole)/"
mutant 'polls: a whole write acknowledged' packet.c "$taken s/if \(!whole \|\| group == 0xD\)/if (group == 0xD \&\& command > 0xD0 \&\& work->end - work->at >= command - 0xD0)\n        return work->at += command - 0xD0, GOES_ON;\n    if (!whole || group == 0xD)/"
mutant 'polls: a write to the packet'"'"'s end acknowledged' packet.c "$taken s/if \(!whole \|\| group == 0xD\)/if (command == 0xD0)\n        return work->at = work->end, GOES_ON;\n    if (!whole || group == 0xD)/"
mutant 'polls: a write not implemented' packet.c "$taken s/if \(!whole \|\| group == 0xD\)/if (group == 0xD)\n        return NOT_IMPLEMENTED;\n    if (!whole)/"
mutant 'polls: a write silent' packet.c "$taken s/if \(!whole \|\| group == 0xD\)/if (group == 0xD)\n        return SILENT;\n    if (!whole)/"
mutant 'polls: a write moves on to the next command' packet.c "$taken s/if \(!whole \|\| group == 0xD\)/if (group == 0xD)\n        return GOES_ON;\n    if (!whole)/"

# Reads
mutant 'polls: 0xE0 counts registers' packet.c "$taken s/command == 0xE0 \? parameter\[0\]/command == 0xE0 ? 3 * parameter[0]/"
mutant 'polls: 0xE1 to 0xEF count registers' packet.c "$taken s/command == 0xE0 \? parameter\[0\] : command - 0xE0/command == 0xE0 ? parameter[0] : 3 * (command - 0xE0)/"
mutant 'polls: 0xE0 of four bits' packet.c "$taken s/command == 0xE0 \? parameter\[0\]/command == 0xE0 ? parameter[0] % 16/"
mutant 'polls: part of a register left out' packet.c "$reading s/if \(count % 3 != 0\)/count -= count % 3;\n    if (false)/"
mutant 'polls: part of a register made whole' packet.c "$reading s/if \(count % 3 != 0\)/if (false)/"
mutant 'polls: part of a register not implemented' packet.c "$reading s/return NACK;/return count % 3 != 0 ? NOT_IMPLEMENTED : NACK;/"
mutant 'polls: a read of 0 bytes NACK' packet.c "$reading s/if \(count % 3 != 0\)/if (count % 3 != 0 || count == 0)/"
mutant 'polls: a read of 0 bytes is of 3' packet.c "$reading s/^    if \(count % 3/    count = count == 0 ? 3 : count;\n&/"
mutant 'polls: a read of 0 bytes is of 256' packet.c "$reading s/^    if \(count % 3/    count = count == 0 ? 256 : count;\n&/"
mutant 'polls: a read of 0 bytes before the first close NACK' packet.c "$reading s/if \(count % 3 != 0\)/if (count % 3 != 0 || work->registers == NULL)/"
mutant 'polls: a read of 0 bytes at no register NACK' packet.c "$reading s/^    if \(count % 3 != 0\)/    int64_t any;\n    if (count % 3 != 0 || (work->registers != NULL \&\& register_read(work->registers, work->slot, work->pointer, \&any) != 0))/"
mutant 'polls: a refused read silent' packet.c "$reading s/return NACK;/return SILENT;/"
mutant 'polls: a refused read not implemented' packet.c "$reading s/return NACK;/return NOT_IMPLEMENTED;/"
mutant 'polls: a refused register left out' packet.c "$reading s/if \(!read_one\(work\)\)/if (!read_one(work) \&\& (work->pointer += 3) < 0)/"
mutant 'polls: a read ends where a register is refused' packet.c "$reading s/^            return NACK;/            return GOES_ON;/"
mutant 'polls: a register that is refused is 0' packet.c 's/^    int64_t value;/    int64_t value = 0;/; s/if \(work->registers == NULL .*/if (work->registers == NULL)\n        return false;\n    if (register_read(work->registers, work->slot, work->pointer, \&value) != 0 \&\& work->pointer < 0)/'
mutant 'polls: a slot that is off is 0' packet.c 's/^    int64_t value;/    int64_t value = 0, said = 0;/; s/if \(work->registers == NULL .*/if (work->registers == NULL || ((said = register_read(work->registers, work->slot, work->pointer, \&value)) != 0 \&\& said != 17))/'
mutant 'polls: zeros before the first close' packet.c 's/^    int64_t value;/    static const struct registers zeros;\n    int64_t value;/; s/if \(work->registers == NULL .*/if (register_read(work->registers == NULL ? \&zeros : work->registers, work->slot, work->pointer, \&value) != 0)/'
mutant 'polls: silent before the first close' packet.c "$reading s/return NACK;/return work->registers == NULL \&\& count % 3 == 0 ? SILENT : NACK;/"
mutant 'polls: one read a packet' packet.c "$reading s/if \(count % 3 != 0\)/if (count % 3 != 0 || work->data_length > 0)/"
mutant 'polls: only the last read sent' packet.c "$reading s/^    if \(count % 3/    work->data_length = 0;\n&/"
mutant 'polls: only the first read sent' packet.c "$reading s/^    if \(count % 3 != 0\)/    if (work->data_length > 0)\n        return GOES_ON;\n&/"
mutant 'polls: the last failing command decides' packet.c 's/^    while \(code == GOES_ON && work.at != work.end\)/    for (enum code next = code; code != CHECKSUM_FAILED \&\& work.at != NULL \&\& work.at != work.end;)/; s/^        code = take_command\(&work\);/        code = (next = take_command(\&work)) != GOES_ON ? next : code;/'
mutant 'polls: data before the failing command still sent' packet.c 's/^    if \(code == GOES_ON && work.data_length > DATA_MOST\)/    if (work.data_length > 0 \&\& code != SILENT)\n        code = GOES_ON;\n&/'
mutant 'polls: a failing command behind data silent' packet.c 's/^    if \(code == GOES_ON && work.data_length > DATA_MOST\)/    if (work.data_length > 0 \&\& code != GOES_ON)\n        code = SILENT;\n&/'

# The reply
mutant 'polls: high byte first' packet.c 's/for \(int bits = 0; bits < 24; bits \+= 8\)/for (int bits = 16; bits >= 0; bits -= 8)/'
mutant 'polls: negative values by their size' packet.c 's/\(uint64_t\)value >> bits/(uint64_t)(value < 0 ? -value : value) >> bits/'
mutant 'polls: negative values as 0' packet.c 's/\(uint64_t\)value >> bits/(uint64_t)(value < 0 ? 0 : value) >> bits/'
mutant 'polls: two bytes a register' packet.c 's/bits < 24;/bits < 16;/'
mutant 'polls: 255 bytes of data sent' packet.h 's/REPLY_MOST = 255,/REPLY_MOST = 258,/'
mutant 'polls: 252 bytes of data too many' packet.c 's/work.data_length > DATA_MOST\)/work.data_length >= DATA_MOST)/'
mutant 'polls: 249 bytes of data too many' packet.c 's/work.data_length > DATA_MOST\)/work.data_length > DATA_MOST - 6)/'
mutant 'polls: too much data NACK' packet.c 's/^        code = BUFFER_OVERFLOW;/        code = NACK;/'
mutant 'polls: too much data silent' packet.c 's/^        code = BUFFER_OVERFLOW;/        code = SILENT;/'
mutant 'polls: too much data cut' packet.c 's/^        code = BUFFER_OVERFLOW;/        work.data_length = DATA_MOST;/'
mutant 'polls: too much data fails at once' packet.c "$reading s/^    return GOES_ON;/    return work->data_length > DATA_MOST ? BUFFER_OVERFLOW : GOES_ON;/"
mutant 'polls: the reply counts its data alone' packet.c 's/\(int\)work->data_length \+ FRAME/(int)work->data_length/'
mutant 'polls: the reply counts one less' packet.c 's/\(int\)work->data_length \+ FRAME/(int)work->data_length + 2/'
mutant 'polls: the reply counts registers' packet.c 's/\(int\)work->data_length \+ FRAME/(int)work->data_length \/ 3 + 3/'
mutant 'polls: the reply'"'"'s sum of the data alone' packet.c 's/sum_of\(reply->byte, reply->length\)/sum_of(reply->byte + 2, reply->length - 2)/'
mutant 'polls: the reply'"'"'s sum without its header' packet.c 's/sum_of\(reply->byte, reply->length\)/sum_of(reply->byte + 1, reply->length - 1)/'
mutant 'polls: a reply without its sum' packet.c '/^static void put_data/,/^\}/s/^    put_byte\(reply, sum_of.*//'
mutant 'polls: half duplex' packet.c 's/ACKNOWLEDGE_DATA = 0xAA/ACKNOWLEDGE_DATA = 0xAB/'
mutant 'polls: without data the header' packet.c 's/ACKNOWLEDGE = 0xAD/ACKNOWLEDGE = 0xAA/'
mutant 'polls: without data a packet' packet.c 's/work.data_length > 0\)/true)/'
mutant 'polls: without data silent' packet.c 's/^    else if \(code != SILENT\)/    else if (code > GOES_ON)/'
mutant 'polls: without data NACK' packet.c 's/GOES_ON \? ACKNOWLEDGE/GOES_ON ? NACK/'
mutant 'polls: an empty reply NACK' packet.c 's/^    else if \(code != SILENT\)/    else if (code == SILENT)\n        put_byte(reply, NACK);\n    else/'

# What is held, and room
mutant 'polls: a hold taken for a refused read' module.c "$poll s/$sends/    if (reply->length > 1 || (reply->length == 1 \&\& reply->byte[0] == 0xB0))/"
mutant 'polls: a hold taken for every poll' module.c "$poll s/$sends//"
mutant 'polls: a hold taken for an acknowledgement' module.c "$poll s/$sends/    if (reply->length > 1 || (reply->length == 1 \&\& reply->byte[0] == 0xAD))/"
mutant 'polls: a hold taken for a wrong checksum' module.c "$poll s/$sends/    if (reply->length > 1 || (reply->length == 1 \&\& reply->byte[0] == 0xBD))/"
mutant 'polls: a hold taken for a packet or a reply too long' module.c "$poll s/$sends/    if (reply->length > 1 || (reply->length == 1 \&\& reply->byte[0] == 0xBF))/"
mutant 'polls: a hold taken for an unknown command' module.c "$poll s/$sends/    if (reply->length > 1 || (reply->length == 1 \&\& reply->byte[0] == 0xBC))/"
mutant 'polls: a hold taken for silence' module.c "$poll s/$sends/    if (reply->length != 1)/"
mutant 'polls: a hold taken where the reply is too long' module.c "$poll s/^    if \(reply->length > \(size_t\)room\)/    if (reply->length > 1)\n        module_hold(module, 1, \&held);\n&/"
mutant 'polls: no hold taken' module.c "$poll s/$sends/    if (false)/"
mutant 'polls: no hold taken where one is held' module.c "$poll s/$sends/    if (reply->length > 1 \&\& !module->port[1].held)/"
mutant 'polls: no hold taken for one register' module.c "$poll s/$sends/    if (reply->length > 6)/"
mutant 'polls: a hold on port 0' module.c "$poll s/module_hold\(module, 1,/module_hold(module, 0,/"
mutant 'polls: a hold on both ports' module.c "$poll s/module_hold\(module, 1, &held\);/(module_hold(module, 0, \&held), module_hold(module, 1, \&held));/"
mutant 'polls: data from the earlier hold of port 1' module.c "$poll s/module->some_closed \? &module->closed.registers/module->port[1].held ? \&module->port[1].hold.registers : module->some_closed ? \&module->closed.registers/"
mutant 'polls: data from the hold of port 0' module.c "$poll s/module->some_closed \? &module->closed.registers/module->port[0].held ? \&module->port[0].hold.registers : module->some_closed ? \&module->closed.registers/"
mutant 'polls: no data where nothing is held yet' module.c "$poll s/module->some_closed \?/module->port[1].held ?/"
mutant 'polls: a hold dropped by a poll that sends none' module.c "$poll s/$sends/    if (reply->length == 1)\n        module->port[1].held = false;\n&/"
mutant 'polls: a hold dropped by a poll without room' module.c "$poll s/^        reply->length = 0;/&\n        module->port[1].held = false;/"
mutant 'polls: a reply cut to the buffer' module.c "$poll s/^        reply->length = 0;/        reply->length = (size_t)room;/; $poll s/return 21;/return 0;/"
mutant 'polls: a reply as long as the buffer refused' module.c "$poll s/reply->length > \(size_t\)room/reply->length > 0 \&\& reply->length >= (size_t)room/"
mutant 'polls: a reply one byte too long taken' module.c "$poll s/reply->length > \(size_t\)room/reply->length > (size_t)room + 1/"
mutant 'polls: a code needs no room' module.c "$poll s/reply->length > \(size_t\)room/reply->length > (size_t)room \&\& reply->length > 1/"
mutant 'polls: silence needs room' module.c "$poll s/reply->length > \(size_t\)room/reply->length > (size_t)room || room == 0/"
mutant 'polls: room for the longest reply needed' module.c "$poll s/reply->length > \(size_t\)room/room < 255/"
mutant 'polls: a reply without room is a code' module.c "$poll s/^        reply->length = 0;/        reply->length = 1;\n        reply->byte[0] = 0xBF;/; $poll s/return 21;/return 0;/"
mutant 'polls: a reply without room refused with 20' words.c 's/\[21\] =/[20] =/' module.c "$poll s/return 21;/return 20;/"
mutant 'polls: refused while port 1 is open' module.c "$poll s/^    packet_reply/    if (module->port[1].open)\n        return reply->length = 0, 9;\n&/"
mutant 'polls: the card at port 1 dropped' module.c "$poll s/$sends/    module->port[1].open = module->port[1].open \&\& reply->length <= 1;\n&/"
mutant 'polls: the card that waits dropped' module.c "$poll s/^    packet_reply/    module->card_waits = false;\n&/"
mutant 'polls: the running interval begun anew' module.c "$poll s/^    packet_reply/    memset(\&module->interval, 0, sizeof module->interval);\n&/"
mutant 'polls: alarms cleared' module.c "$poll s/$sends/    module->alarms.set = 0;\n&/"
mutant 'polls: alarms cleared where registers are sent' module.c "$poll s/$sends/    module->alarms.set = reply->length > 1 ? 0 : module->alarms.set;\n&/"

# The line and its answer
mutant 'polls: bytes in small letters' console.c 's/" %02X"/" %02x"/'
mutant 'polls: bytes without a zero in front' console.c 's/" %02X"/" %X"/'
mutant 'polls: bytes without spaces' console.c 's/" %02X"/"%02X"/'
mutant 'polls: bytes in decimal' console.c 's/" %02X"/" %u"/'
mutant 'polls: how many bytes the reply has' console.c 's/^    for \(size_t k = 0; k < reply->length; k\+\+\)/    printf(" %zu", reply->length);\n&/'
mutant 'polls: small letters not read' line.c "/^static enum unread take_packet_byte/,/^\}/s/if \(item.length != 2 \|\| /if (item.length != 2 || item.at[0] > 'F' || item.at[1] > 'F' || /"
mutant 'polls: capitals not read' line.c "/^static enum unread take_packet_byte/,/^\}/s/if \(item.length != 2 \|\| /if (item.length != 2 || (item.at[0] >= 'A' \&\& item.at[0] <= 'F') || (item.at[1] >= 'A' \&\& item.at[1] <= 'F') || /"
mutant 'polls: one digit read' line.c 's/if \(item.length != 2 \|\| /if (item.length > 2 || /'
mutant 'polls: three digits read' line.c 's/if \(item.length != 2 \|\| /if (item.length < 2 || /'
mutant 'polls: an empty byte left out' line.c 's/^    if \(item.length != 2 \|\| /    if (item.length == 0)\n        return NONE;\n&/'
mutant 'polls: a space at the end taken' line.c 's/^    if \(item.length != 2 \|\| /    if (item.length == 0 \&\& step->packet_length > 2)\n        return NONE;\n&/'
mutant 'polls: bytes are numbers' line.c 's/if \(item.length != 2 \|\| .*/int64_t any = 0;\n    if ((item.length != 2 || !all_digits(digits, 16, 255, \&byte)) \&\& !(is_number(item, \&any) \&\& any >= 0 \&\& any < 256 \&\& (byte = (uint64_t)any, true)))/'
mutant 'polls: decimal digits alone' line.c 's/all_digits\(digits, 16, 255, &byte\)/all_digits(digits, 10, 255, \&byte)/'
mutant 'polls: 4,097 bytes read' line.h 's/PACKET_MOST = 4096/PACKET_MOST = 4097/'
mutant 'polls: 4,096 bytes not read' line.h 's/PACKET_MOST = 4096/PACKET_MOST = 4095/'
mutant 'polls: 255 bytes read at most' line.h 's/PACKET_MOST = 4096/PACKET_MOST = 255/'
mutant 'polls: behind 4,096 bytes one that is none' line.c 's/^    if \(step->packet_length == PACKET_MOST\)/    if (item.length != 2 || !all_digits(digits, 16, 255, \&byte))\n        return NO_BYTE;\n&/'
mutant 'polls: a room of 256 read' line.h 's/ROOM_MOST = 255/ROOM_MOST = 256/'
mutant 'polls: a room of 255 not read' line.h 's/ROOM_MOST = 255/ROOM_MOST = 254/'
mutant 'polls: any room read' line.c 's/room < 0 \|\| room > ROOM_MOST/false/; s/step->number\[0\] = room;/step->number[0] = room < 0 ? 0 : room;/'
mutant 'polls: a room cut to eight bits' line.c 's/ \|\| room < 0 \|\| room > ROOM_MOST//; s/step->number\[0\] = room;/step->number[0] = room \& 255;/'
mutant 'polls: a room of -1 read' line.c 's/room < 0 \|\|/room < -1 ||/; s/step->number\[0\] = room;/step->number[0] = room < 0 ? 255 : room;/'
mutant 'polls: a room of 0 not read' line.c 's/room < 0 \|\|/room < 1 ||/'
mutant 'polls: a room that is none no 64-bit number' line.c 's/^        return NO_ROOM;/        return NO_NUMBER;/'
mutant 'polls: a room beyond its range refused with 12' line.c 's/room < 0 \|\| room > ROOM_MOST/false/' module.c "$poll s/^    packet_reply/    if (room < 0 || room > 255)\n        return reply->length = 0, 12;\n&/"
mutant 'polls: the room judged behind the bytes' line.c 's/^        return NO_ROOM;/        unread = NO_ROOM;/; s/^    step->number\[0\] = room;/    enum unread of_room = unread;\n    unread = NONE;\n&/; /^static enum unread take_poll/,/^\}/s/^    return unread;/    return unread != NONE ? unread : of_room;/'
mutant 'polls: the room may be left out' line.c '/^static enum unread take_poll/,/^\}/s/^        return ITEM_MISSING;/        return step->number[0] = 255, step->packet_length = 0, NONE;/'
mutant 'polls: bytes of the poll before stay' line.c 's/^    step->packet_length = 0;/    if (at_end(rest))\n        return NONE;\n&/'
mutant 'polls: the words of room and byte exchanged' words.c 's/\[NO_ROOM\]/[MORE_BYTES + 1]/; s/\[NO_BYTE\]/[NO_ROOM]/; s/\[MORE_BYTES \+ 1\]/[NO_BYTE]/'
mutant 'polls: the help without poll' words.c '/^    "# poll ROOM/,/lent for it/d'
mutant 'polls: the words of 21 of a book alone' words.c 's/the buffer is too short/no room for the longer book/'
