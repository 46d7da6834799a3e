# What tools/assemble and tools/make-cases write of an instruction's text and of a job file's table. The tool says
# how it writes a byte, `byte(n)`, and what it does on an error, `fail(what)`.
BEGIN {
    kinds["plain"] = 0; kinds["load"] = 1; kinds["store"] = 2; kinds["branch"] = 3; kinds["jump"] = 4
    flags["hit"] = 0; flags["miss"] = 1; flags["unknown"] = 2
    # the fields by name, and the most that fits each
    most["kind"] = most["first"] = most["second"] = most["target"] = most["execute"] = 255
    most["fetch"] = most["data"] = 3
    most["bits"] = 15
    most["fetch-latency"] = most["data-latency"] = 65535
}
function half(n) { return byte(n % 256) byte(int(n / 256)) }
function header_of(traces) { return half(traces) }
function entry_of(offset, count) { return half(offset % 65536) half(int(offset / 65536)) half(count) }
function number(at, top) {
    if (w[at] !~ /^[0-9]+$/ || w[at] + 0 > top) fail("expected a number up to " top " after " w[at - 1])
    return w[at] + 0
}
function flag(at) {
    if (!(w[at] in flags)) fail("expected hit, miss or unknown after " w[at - 1])
    return flags[w[at]]
}
# FIELD=N
function set(word,   name, n) {
    name = n = word
    sub(/=.*/, "", name)
    sub(/^[^=]*=/, "", n)
    if (!(name in most)) fail("unknown word " word)
    if (n !~ /^[0-9]+$/ || n + 0 > most[name]) fail("expected a number up to " most[name] " after " name "=")
    field[name] = n + 0
}
# The record of an instruction's text, whose first word is a kind.
function record_of(text,   i, n) {
    n = split(text, w)
    for (i in most) field[i] = 0
    field["kind"] = kinds[w[1]]
    field["fetch-latency"] = 1
    field["data-latency"] = w[1] == "load" || w[1] == "store" ? 1 : 0
    for (i = 2; i <= n; i++) {
        if (w[i] == "fetch" || w[i] == "data") {
            field[w[i]] = flag(i + 1)
            field[w[i] "-latency"] = number(i + 2, 65535)
            i += 2
        } else if (w[i] == "from") {
            field["first"] = number(++i, 255)
            if (w[i + 1] ~ /^[0-9]+$/) field["second"] = number(++i, 255)
        } else if (w[i] == "to") field["target"] = number(++i, 255)
        else if (w[i] == "execute") field["execute"] = number(++i, 255)
        else if (w[i] ~ /=/) set(w[i])
        else fail("unknown word " w[i])
    }
    return byte(field["kind"]) byte(field["fetch"] + 4 * field["data"] + 16 * field["bits"]) \
        byte(field["first"]) byte(field["second"]) byte(field["target"]) byte(field["execute"]) \
        half(field["fetch-latency"]) half(field["data-latency"])
}
