# Writes samples/sliding-window.session in hex, as samples/sliding-window.md describes it:
#     awk -f tests/spin/sliding-window.awk | xxd -r -p
# Go-back-2 over three sequence numbers. Sender state 3b+k: b is the oldest number not acknowledged, k how many are under way.
# Receiver state r: the number it waits for. Messages 0 to 2 are data; 3 to 5 say "I wait for 0 to 2".

function put(number) {
    if (number < 128) printf "%02x ", number
    else printf "%02x %02x ", number % 128 + 128, int(number / 128)
}
function all(words,    part, n, i) { n = split(words, part, " "); for (i = 1; i <= n; i++) put(part[i]) }
function on(number) { return number % 3 }

# A transition of one message.
function step(machine, from, to, kind, queue, message) {
    moves[count++] = machine " " from " " to " " kind " " queue " 1 " message
}

# The pool. A state is named by what it has still to read, and is numbered when it is first named:
#   d r j S b   data for a receiver at r: the word stands in one of the segments S, and the last segment is j;
#               then acknowledgements b to r. Segment 1 has the two numbers before r, segment 2 the one before r and r,
#               segment 3 r and the one after it. Segment 2 begins with r, segment 3 with the one after it.
#   a b r       acknowledgements b to r, in this order
#   w r         data in which r comes, then anything; v is the part after r, u the acknowledgements
function state(name) {
    if (!(name in number)) { number[name] = named; names[named++] = name }
    return number[name]
}
function arc(message, name) { arcs = arcs " " message " " state(name); arc_count++ }
function acknowledgements(b, r,    message, at) {
    for (message = 0; message < 3; message++)
        for (at = b; at <= b + on(r - b + 3); at++)
            if (on(at) == message) arc(3 + message, "a " message " " r)
}
function data(r, j, S, b,    message, i, next_S) {
    for (message = 0; message < 3; message++) {
        next_S = ""
        for (i = 1; i <= j; i++)
            if (index(S, i) && message != on(r + i - 1) || index(S, i - 1) && message == on(r + i - 2)) next_S = next_S i
        if (next_S != "") arc(message, "d " r " " j " " next_S " " b)
    }
    if (index(S, j)) acknowledgements(b, r)
}
function row(name,    part, message) {
    arcs = ""; arc_count = 0
    split(name, part, " ")
    if (part[1] == "d") data(part[2], part[3], part[4], part[5])
    else if (part[1] == "a") acknowledgements(part[2], part[3])
    else {
        for (message = 0; message < 3 && part[1] != "u"; message++)
            arc(message, part[1] == "v" || message == part[2] ? "v" : name)
        for (message = 3; message < 6 && part[1] != "w"; message++) arc(message, "u")
    }
    return (part[1] == "w" || part[1] == "d" && !index(part[4], part[3]) ? 0 : 1) " " arc_count arcs
}

BEGIN {
    count = named = entries = 0
    all("2 9 3 0 0 2 3 3")
    for (b = 0; b < 3; b++)
        for (k = 0; k < 3; k++) {
            at = 3 * b + k
            if (k < 2) step(0, at, at + 1, 1, 0, on(b + k))                             # a new number
            for (i = 0; i < k; i++) step(0, at, at, 1, 0, on(b + i))                    # one under way again
            for (i = 0; i < 3; i++) step(0, at, at, 2, 1, 3 + i)                        # an acknowledgement is lost, or old
            for (i = 1; i <= k; i++) step(0, at, 3 * on(b + i) + k - i, 2, 1, 3 + on(b + i))
        }
    for (r = 0; r < 3; r++) {
        step(1, r, on(r + 1), 2, 0, r)                                                  # the number waited for
        for (i = 0; i < 3; i++) step(1, r, r, 2, 0, i)                                  # a number is lost, or old
        step(1, r, r, 1, 1, 3 + r)
    }
    put(count)
    for (i = 0; i < count; i++) all(moves[i])

    for (b = 0; b < 3; b++)
        for (k = 0; k < 3; k++)
            for (r = 0; r < 3; r++) {
                ahead = on(r - b + 3)                                                   # received and not yet acknowledged
                j = k - ahead + 1
                roots = roots " " (j < 1 ? 0 : 1 + state("d " r " " j " " substr("123", 1, j) " " b))
                if (j == 1) { bad = bad " " 9 * b + 3 * k + r " " state("w " r); entries++ }
            }
    for (i = 0; i < named; i++) pool[i] = row(names[i])
    put(named)
    for (i = 0; i < named; i++) all(pool[i])
    all(roots)
    put(entries)
    all(bad)
    print ""
}
