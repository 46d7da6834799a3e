# Makes the lines that the program `cases` reads of the texts that state its cases, and what it must print; what a text
# says is told at the head of tools/make-cases. The layout of records and tables is in tools/layout.awk.
function fail(what) { print "make-cases: " place[at] ": " what > "/dev/stderr"; failed = 1; exit 2 }
function byte(n) { return sprintf("%02x", n) }
function bytes_in(hex) { return length(hex) / 2 }
function trim(text) { sub(/^ +/, "", text); sub(/ +$/, "", text); return text }
function repeat(unit, n,   half_of) {
    if (n < 1) return ""
    if (n == 1) return unit
    half_of = repeat(unit, int(n / 2))
    return half_of half_of (n % 2 ? unit : "")
}

# {NAME}, or numbers and names with + - * / % between them, from left to right.
function evaluate(text,   value, op, part) {
    if (text in variable) return variable[text]
    op = "+"
    value = 0
    while (match(text, /^[a-z0-9]+/)) {
        part = substr(text, 1, RLENGTH)
        text = substr(text, RLENGTH + 1)
        if (part in variable) part = variable[part]
        if (part !~ /^[0-9]+$/) fail("no number " part)
        if (op == "+") value += part
        else if (op == "-") value -= part
        else if (op == "*") value *= part
        else if (op == "/") value = int(value / part)
        else value %= part
        op = substr(text, 1, 1)
        text = substr(text, 2)
    }
    if (text != "") fail("no expression {.." text "}")
    return value
}
function substituted(text,   before, open, end_at) {
    before = ""
    while (open = index(text, "{")) {
        end_at = index(text, "}")
        before = before substr(text, 1, open - 1) evaluate(substr(text, open + 1, end_at - open - 1))
        text = substr(text, end_at + 1)
    }
    return before text
}

# Numbers of 32 bits are written whole.
BEGIN { CONVFMT = OFMT = "%.10g" }

# The slots by number, and sets of them: bit k is set where slot k is filled.
BEGIN {
    split("IF ID EX MEM ST WB", slots)
    for (i = 1; i <= 6; i++) slot[slots[i]] = i
}
function has(filled, name) { return int(filled / 2 ^ (slot[name] - 1)) % 2 }
# +SLOT, -SLOT, or some:SLOT,SLOT and none:SLOT,SLOT
function fits(filled, test,   names, n, i, some) {
    if (test ~ /^[+-]/) return has(filled, substr(test, 2)) == (test ~ /^[+]/)
    n = split(substr(test, index(test, ":") + 1), names, ",")
    some = 0
    for (i = 1; i <= n; i++) some = some || has(filled, names[i])
    return some == (test ~ /^some:/)
}
# The values that a sweep goes through, put at its depth; how many they are.
function domain(text, depth,   words, n, i, filled, ok, many) {
    n = split(text, words, " ")
    many = 0
    if (words[1] ~ /^[0-9]+\.\.[0-9]+$/) {
        n = index(words[1], "..")
        for (i = substr(words[1], 1, n - 1) + 0; i <= substr(words[1], n + 2) + 0; i++) values[depth, ++many] = i
    } else if (words[1] == "sets") {
        for (filled = 0; filled < 64; filled++) {
            ok = 1
            for (i = 2; i <= n; i++) ok = ok && fits(filled, words[i])
            if (ok) values[depth, ++many] = filled
        }
    } else if (words[1] == "list") {
        for (i = 1; i <= items[words[2]]; i++) values[depth, ++many] = item[words[2], i]
    } else for (i = 1; i <= n; i++) values[depth, ++many] = words[i]
    if (many == 0) fail("nothing in " text)
    return many
}

# Runs the lines of the text from one to another: sweeps over several end with a line `end`.
function run(from, to, depth,   i, last, nested, many, v, name) {
    for (i = from; i <= to; i++) {
        at = i
        if (line[i] !~ /^for / || index(line[i], ": ")) {
            statement(line[i], depth)
            continue
        }
        nested = 1
        for (last = i + 1; nested && last <= to; last++)
            nested += line[last] ~ /^for / && !index(line[last], ": ") ? 1 : line[last] == "end" ? -1 : 0
        if (nested) fail("no end")
        name = variable_of(line[i])
        many = domain(substituted(domain_of(line[i])), depth)
        for (v = 1; v <= many; v++) {
            variable[name] = values[depth, v]
            run(i + 1, last - 2, depth + 1)
        }
        delete variable[name]
        i = last - 1
    }
}
function variable_of(text,   words) {
    if (split(text, words, " ") < 4 || words[3] != "in") fail("expected for NAME in ..")
    return words[2]
}
function domain_of(text) { sub(/^for [^ ]* in /, "", text); return text }
function statement(text, depth,   colon, head, many, v, name, pair, rest) {
    colon = index(text ": ", ": ")
    head = substr(text, 1, colon - 1)
    rest = substr(text, colon + 2)
    if (head ~ /^for /) {
        name = variable_of(head)
        many = domain(substituted(domain_of(head)), depth)
        for (v = 1; v <= many; v++) {
            variable[name] = values[depth, v]
            statement(rest, depth + 1)
        }
        delete variable[name]
    } else if (head ~ /^pairs /) {
        split(head, pair, " ")
        for (v = 1; v <= items[pair[2]]; v++)
            for (many = v + 1; many <= items[pair[2]]; many++) {
                variable["one"] = item[pair[2], v]
                variable["other"] = item[pair[2], many]
                statement(rest, depth)
            }
    } else stated(substituted(head), substituted(rest))
}
function stated(head, rest,   words, n, i) {
    n = split(head, words, " ")
    if (words[1] == "group") { end_group(); label = substr(head, 7) }
    else if (words[1] == "list") item[words[2], ++items[words[2]]] = rest
    else if (words[1] == "bytes") named["@" words[2]] = named["@" words[2]] " " rest
    else if (words[1] == "entries") for (i = 3; i <= n; i++) on_entry[words[2], i - 3] = words[i]
    else one_case(head, rest)
}
function end_group() {
    if (label != "") {
        print "group " label
        print label ": " cases " of " cases > expected
    }
    cases = 0
}

# Bytes: pieces, each a unit so many times.
function piece(unit, n) {
    units[++pieces] = unit
    times[pieces] = n
    length_of_all += n * bytes_in(unit)
}
# A record so many times; up to 200 are pieces of their own, which an edit can alter.
function add_record(text, n,   i) {
    if (!(text in encoded)) encoded[text] = record_of(text)
    if (n > 200) { piece(encoded[text], n); records += n; return }
    for (i = 0; i < n; i++) {
        piece((records in altered) ? record_of(text " " altered[records]) : encoded[text], 1)
        records++
    }
}
# "mixed": plain records whose execution latencies go round from 0 to 6, so that neighbours differ.
function add_mixed(n,   i, unit) {
    for (i = 0; i < 7; i++) unit = unit record_of("plain execute " i)
    if (n > 200) { piece(unit, int(n / 7)); records += 7 * int(n / 7); n %= 7 }
    for (i = 0; i < n; i++) add_record("plain execute " i % 7, 1)
}
# How many records an item stands for, which are added if asked.
function add(item_text, really,   words, n) {
    split(item_text, words, " ")
    n = 1
    if (words[1] == "mixed") {
        n = words[2] + 0
        if (really) add_mixed(n)
    } else if (words[2] == "of") {
        n = words[1] + 0
        if (really) add_record(substr(item_text, index(item_text, " of ") + 4), n)
    } else if (words[1] in kinds) {
        if (really) add_record(item_text, 1)
    } else fail("no instruction: " item_text)
    return n
}
function add_all(text, really,   parts, n, i, many) {
    n = split(text, parts, ";")
    many = 0
    for (i = 1; i <= n; i++) if (trim(parts[i]) != "") many += add(trim(parts[i]), really)
    return many
}
# A file: its table with what the edits say of it, then the bodies. The start and end of each body are kept.
function add_file(traces,   n, t, offset, size, many) {
    n = split(traces, trace_text, "/") - 1
    offset = bytes_in(header_of(0)) + n * bytes_in(entry_of(0, 0))
    piece(header_of((("traces", "") in told) ? told["traces", ""] : n), 1)
    size = bytes_in(record_of("plain"))
    for (t = 0; t < n; t++) {
        many = add_all(trace_text[t + 2], 0)
        starts[t] = offset
        piece(entry_of((offset + told["offset", t] + 2 ^ 32) % 2 ^ 32, (("count", t) in told) ? told["count", t] : many), 1)
        offset += size * many
        ends[t] = offset
    }
    for (t = 0; t < n; t++) add_all(trace_text[t + 2], 1)
}
# first N, less N, more N, traces=N, entry T count=N, entry T offset+N, entry T offset-N, record N WORDS
function read_edit(text,   words) {
    split(text, words, " ")
    if (text ~ /^traces=[0-9]+$/) told["traces", ""] = substr(text, 8)
    else if (text ~ /^entry [0-9]+ count=[0-9]+$/) told["count", words[2]] = substr(words[3], 7)
    else if (text ~ /^entry [0-9]+ offset[+-][0-9]+$/) told["offset", words[2]] = substr(words[3], 7)
    else if (text ~ /^record [0-9]+ /) altered[words[2]] = altered[words[2]] " " substr(text, 8 + length(words[2]))
    else if (text !~ /^(first|less|more) [0-9]+$/) fail("no edit: " text)
}
function cut(text,   words) {
    split(text, words, " ")
    if (words[1] == "first") return words[2] + 0
    if (words[1] == "less") return length_of_all - words[2]
    if (words[1] == "more") { piece("00", words[2]); return length_of_all }
    return length_of_all
}
# The pieces of a text, and how many bytes it has.
function build(text,   bar, edits, n, i, all) {
    if (match(text, /@[a-z]+/)) {
        if (!(substr(text, RSTART, RLENGTH) in named)) fail("no bytes " substr(text, RSTART, RLENGTH))
        text = substr(text, 1, RSTART - 1) named[substr(text, RSTART, RLENGTH)] substr(text, RSTART + RLENGTH)
    }
    pieces = length_of_all = records = 0
    split("", told); split("", altered); split("", starts); split("", ends)
    bar = index(text "|", "|")
    n = split(substr(text, bar + 1), edits, ",")
    for (i = 1; i <= n; i++) read_edit(trim(edits[i]))
    text = trim(substr(text, 1, bar - 1))
    if (text ~ /^file/) add_file(text)
    else add_all(text, 1)
    all = length_of_all
    for (i = 1; i <= n; i++) all = cut(trim(edits[i]))
    return all
}

# The pieces laid out in the program's memory, the input from 0 on and what stands beside it from 65,600 on: only what is
# not there already. A line has two bytes as one number, the low one first; where it ends in one, the byte behind it is
# written again as it is.
BEGIN {
    beside_at = 65600
    input_text = "none yet"
    for (i = 0; i < 256; i++) value[byte(i)] = i
}
function print_pairs(at, size, hex,   i, text) {
    for (i = 1; i < length(hex); i += 4) text = text " " value[substr(hex, i, 2)] + 256 * value[substr(hex, i + 2, 2)]
    print "p", at, at + size text
}
function flush(buffer) {
    if (length(pending) % 4) pending = pending substr(laid[buffer] "00", 2 * pending_at + length(pending) + 1, 2)
    if (pending != "") print_pairs(buffer + pending_at, bytes_in(pending), pending)
    pending = ""
}
function even(unit) { return bytes_in(unit) % 2 ? unit unit : unit }
# Bytes that wait for those behind them.
function wait(buffer, at, hex) {
    if (hex == "") return
    if (pending_at + bytes_in(pending) != at) flush(buffer)
    if (pending == "") pending_at = at
    pending = pending hex
}
function lay(buffer,   i, from, all, whole) {
    from = 0
    pending = ""
    for (i = 1; i <= pieces; i++) {
        all = repeat(units[i], times[i])
        if (all != substr(laid[buffer], 2 * from + 1, length(all))) {
            whole = times[i] > 1 ? bytes_in(all) - bytes_in(all) % 2 : 0
            if (whole) { flush(buffer); print_pairs(buffer + from, whole, even(units[i])) }
            wait(buffer, from + whole, substr(all, 2 * whole + 1))
            laid[buffer] = substr(laid[buffer], 1, 2 * from) all substr(laid[buffer], 2 * from + length(all) + 1)
        }
        from += bytes_in(all)
    }
    flush(buffer)
}
# The input of a case, and how many bytes it has; texts that follow one another are often alike.
function input(text) {
    if (text != input_text) {
        input_length = build(text)
        lay(0)
        input_text = text
    }
    return input_length
}

# States: the fetched count, and for each slot whether it is filled, its index and its count. As a word it is `index:count`,
# behind a dash where it is not filled, or the dash alone.
function read_slot(name, text,   parts) {
    filled[name] = text !~ /^-/
    sub(/^-/, "", text)
    split(text ":", parts, ":")
    slot_index[name] = parts[1] + 0
    slot_count[name] = parts[2] + 0
}
function slot_numbers(name) { return " " filled[name] " " slot_index[name] " " slot_count[name] }
function state_numbers(   i, text) {
    text = fetched
    for (i = 1; i <= 6; i++) text = text slot_numbers(slots[i])
    return text
}
# The orderly state of a set of slots: IF to MEM hold the last fetched, WB the one before these, ST instruction 0;
# counts are those on entry.
function read_base(n, chosen,   i, name, below, next_one) {
    fetched = below = n
    for (i = 1; i <= 6; i++) {
        name = slots[i]
        read_slot(name, "-")
        next_one = name == "ST" ? 1 : below
        if (!has(chosen, name) || next_one == 0) continue
        read_slot(name, next_one - 1 ":" on_entry[name, next_one - 1] + 0)
        if (name != "ST") below = next_one - 1
    }
}
# fetched=N, counts=0, SLOT=slot, SLOT.count=N, SLOT.count+N, SLOT.index+N, SLOT.index-N, SLOT~SLOT exchanged
function alter_state(text,   parts, name, i, kept) {
    if (text ~ /^fetched=/) fetched = substr(text, 9)
    else if (text == "counts=0") for (i in slot_count) slot_count[i] = 0
    else if (text ~ /~/) {
        split(text, parts, "~")
        kept = slot_index[parts[1]]
        slot_index[parts[1]] = slot_index[parts[2]]
        slot_index[parts[2]] = kept
    } else if (text ~ /^[A-Z]+=/) {
        split(text, parts, "=")
        read_slot(parts[1], parts[2])
    } else if (match(text, /^[A-Z]+\.count=/)) slot_count[substr(text, 1, RLENGTH - 7)] = substr(text, RLENGTH + 1)
    else if (match(text, /^[A-Z]+\.count/)) slot_count[substr(text, 1, RLENGTH - 6)] += substr(text, RLENGTH + 1)
    else if (match(text, /^[A-Z]+\.index/)) slot_index[substr(text, 1, RLENGTH - 6)] += substr(text, RLENGTH + 1)
    else fail("no state: " text)
}
function read_state(words, n,   i) {
    if (words[2] == "base") {
        read_base(words[3], words[4])
        for (i = 5; i <= n; i++) alter_state(words[i])
    } else {
        if (n != 8) fail("expected a fetched count and six slots")
        fetched = words[2]
        for (i = 1; i <= 6; i++) read_slot(slots[i], words[i + 2])
    }
    return state_numbers()
}

# Write: the counts, N*C for N of C, and the room, +N or -N for that much more or less than the file has. Beside the input
# stands the output as it must be then, and four bytes past its end: the file, and what was there before.
function write_case(words, n, body, refusal,   i, t, parts, said, file, room) {
    t = 0
    said = ""
    for (i = 2; i <= n && words[i] != "into"; i++) {
        if (split(words[i], parts, "*") == 1) { parts[2] = parts[1]; parts[1] = 1 }
        for (; parts[1] > 0; parts[1]--) { counts[t++] = parts[2]; said = said " " parts[2] }
    }
    file = bytes_in(header_of(0)) + t * bytes_in(entry_of(0, 0)) + body
    room = words[n] ~ /^[+-]/ ? file + words[n] : words[n] + 0
    if (refusal == 0) written(t)
    else pieces = file = 0
    piece("a5", room + 4 - file)
    lay(beside_at)
    return room + 4 " " room " " t said " =" three(refusal " " file, 2)
}
# The pieces of the file: its table, then those of the input.
function written(t,   i, table, offset) {
    table = header_of(t)
    offset = bytes_in(table) + t * bytes_in(entry_of(0, 0))
    for (i = 0; i < t; i++) {
        table = table entry_of(offset, counts[i])
        offset += bytes_in(record_of("plain")) * counts[i]
    }
    build(input_text)
    for (i = pieces++; i > 0; i--) { units[i + 1] = units[i]; times[i + 1] = times[i] }
    units[1] = table
    times[1] = 1
}

# CALL ARGUMENTS: BYTES = ANSWER
function one_case(head, rest,   words, n, i, call, hits, body, answer, beside) {
    hits = match(head, / hits=[0-9]+$/) ? substr(head, RSTART + 6) : ""
    sub(/ hits=[0-9]+$/, "", head)
    call = sub(/^engine /, "", head) ? toupper(substr(head, 1, 1)) : substr(head, 1, 1)
    n = split(head, words, " ")
    call = call (hits == "" ? substr(words[1], 2) : hits)
    if (hits + 0 > 4294967295) fail("no number of 32 bits: " hits)
    if (hits != "" && words[1] ~ /^(open|view|write)$/) fail(words[1] " takes no hits=" hits)
    i = words[1] ~ /^(step|write)$/ ? n : words[1] ~ /^(run|margin|bus|job|open|view)$/ ? 2 : 1
    if (n > i) fail("unknown word " words[n])
    rest = " " rest
    i = match(rest, / = [^=]*$/)
    if (!i || index("/check/finish/times/run/margin/bus/job/open/view/step/alike/write/", "/" words[1] "/") == 0)
        fail("expected CALL ARGUMENTS: BYTES = ANSWER")
    answer = substr(rest, i + 3)
    gsub(/yes/, "1", answer)
    gsub(/no/, "0", answer)
    rest = trim(substr(rest, 1, i - 1))
    if (words[1] == "alike") {
        beside = trim(substr(rest, index(rest, "&") + 1))
        rest = trim(substr(rest, 1, index(rest, "&") - 1))
    }
    body = input(rest)
    if (words[1] == "write") answer = write_case(words, n, body, answer)
    else if (words[1] == "alike") answer = alike_case(beside, answer)
    else answer = answered(words, n, answer)
    print_case(call " " body " " answer)
    cases++
}
function alike_case(beside, answer,   body) {
    body = build(beside)
    lay(beside_at)
    return body " =" three(answer, 2)
}
# An answer of so many numbers, or of the refusal alone. Zeros follow: the program reads three.
function three(answer, told,   words, n) {
    n = split(answer, words, " ")
    if (n != told && n != 1) fail("expected a refusal or " told " numbers")
    for (; n < 3; n++) answer = answer " 0"
    return answer
}
# The arguments and the answer. Of a refusal its number is told: zeros, the given or the starting state follow.
function answered(words, n, answer,   argument) {
    argument = n > 1 ? words[2] " =" : "="
    if (words[1] == "step") {
        argument = read_state(words, n)
        return argument " =" (answer ~ / / ? after_step(answer) : answer == 0 ? answer : answer " 0 0 " argument)
    }
    if (words[1] == "run") return argument (answer ~ / / ? with_slots(answer) : answer repeat(" 0", 21))
    if (words[1] == "view") return argument answer (answer ~ /^[0-9]+ [0-9]+$/ ? repeat(" 0", 9) : "")
    if (words[1] == "open") return words[2] " " opened(words[2], answer)
    if (words[1] == "job") return argument with_list(words[2], answer)
    if (words[1] == "margin") return argument three(with_sign(answer), 3)
    if (words[1] == "check" && answer !~ / /) fail("expected two refusals")
    return argument three(answer, words[1] == "times" || words[1] == "bus" ? 3 : 2)
}
# The slots of an answer as numbers.
function with_slots(answer,   words, n, i, text) {
    n = split(answer, words, " ")
    text = words[1]
    for (i = 2; i <= n; i++) {
        if (words[i] ~ /[-:]/) read_slot("told", words[i])
        text = text (words[i] ~ /[-:]/ ? slot_numbers("told") : " " words[i])
    }
    return text
}
# A state has the place that it has after a run: two zeros stand for the cycles and for whether all have left.
function after_step(answer) { sub(/ /, " 0 0 ", answer); return with_slots(answer) }
# The refusal, the count of traces, and all twenty places of the list: those that are not filled hold what they held before.
function with_list(places, answer,   words, n, p) {
    if (places > 20) fail("a list has at most 20 places")
    n = split(answer, words, " ")
    if (n == 1) answer = answer " 0"
    else if (n != 2 + words[2] || words[1] != 0) fail("expected a refusal, or 0, a count and as many times")
    for (p = n < 2 ? 0 : n - 2; p < 20; p++) answer = answer " " 900000 + p
    return answer
}
# A margin is how far it is above 0, and how far below.
function with_sign(answer) {
    if (!sub(/ -/, " 0 ", answer) && answer ~ / /) answer = answer " 0"
    return answer
}
# What declines the file, since it is "accepted when nothing but 9 can decline it"; then the refusal, and where the part
# starts and ends.
function opened(trace, answer) {
    return (answer == 9 ? 0 : answer) " =" answer " " (answer == 0 ? starts[trace] " " ends[trace] : "0 0")
}
# A case has nothing but numbers of 32 bits behind its word; an `=` stands before the first of the answer.
function print_case(text,   words, n, i) {
    n = split(text, words, / =?/)
    for (i = 2; i <= n; i++) if (words[i] !~ /^[0-9]+$/ || words[i] + 0 > 4294967295) fail("no number of 32 bits: " words[i])
    print text
}

{
    sub(/(^| )#.*/, "")
    gsub(/[ \t]+/, " ")
    if (trim($0) != "") { line[++lines] = trim($0); place[lines] = FILENAME ":" FNR }
}
END {
    run(1, lines, 1)
    if (failed) exit 2
    end_group()
}
