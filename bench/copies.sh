#!/bin/sh
# copies.sh ARCHIVE: for each call on a record, how many copies of a record (25,096 bytes) and of its files (25,088) the compiled code makes,
# and how many of one file (392 bytes) or less. Ends with 1 where a call, or any other function of the archive, makes a copy of the record or its files.
objdump -dr --no-show-raw-insn "$1" | awk '
    /^[0-9a-f]+ <sc_record_/ { name = $2; gsub(/[<>:]/, "", name); names[++n] = name }
    /^[0-9a-f]+ </ { at = $2; gsub(/^<|>:$/, "", at); if (!/<sc_record_/) name = ""; size = 0 }
    /mov +\$0x[0-9a-f]+,%edx/ { split($0, part, /\$|,/); size = part[2] }
    /memcpy|memmove/ && /R_X86_64/ {
        if (size == "0x6208" || size == "0x6200") {
            whole[at]++
            if (name == "") others[++m] = at
        } else if (name != "") less[name]++
    }
    END {
        for (i = 1; i <= n; i++) {
            printf "%-24s copies of the record or its files: %d, of less: %d\n", names[i], whole[names[i]], less[names[i]]
            if (whole[names[i]]) bad = 1
        }
        for (i = 1; i <= m; i++) if (!told[others[i]]++) printf "%s: copies of the record or its files: %d\n", others[i], whole[others[i]]
        exit bad || m > 0 || n == 0
    }'
