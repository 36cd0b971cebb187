# Prints a random script for hip_play: `awk -v lines=N -v seed=S -f script.awk`. The same numbers give the same script, by the same awk.
function below(n) { return int(rand() * n) }

function pick(words, at) { at = split(words, among, " "); return among[1 + below(at)] }

# Up to `most` characters: letters, separators, white space and characters of two to four bytes.
function characters(most, text, k) {
    text = ""
    for (k = below(most + 1); 0 < k; k--) {
        text = text pick("a b c a b x , ; - \\x20 \\x0A \\x0D \\x09 \\xC3\\xA9 \\xE8\\xAA\\x9E \\xF0\\x9F\\xA6\\x80")
    }
    return text
}

# A literal of them, and now and then of a byte that is no text.
function literal(most) { return "\"" characters(most) (below(25) ? "" : "\\xFF") "\"" }

# Half of the new values become texts.
function then_text(t) { return below(2) ? "\ntext " t : "" }

function pattern() {
    if (below(2)) return "char \"" pick("a b , ; \\xC3\\xA9") "\""
    return pick("text any") " \"" characters(3) "\""
}

function range(low) {
    low = below(40)
    return pick(".. " low ".. .." low " ..=" low " " low ".." low + below(60) " " low "..=" low + below(60))
}

function how(which) {
    which = pick("split inclusive terminator splitn matches rsplit rterminator rsplitn rmatches lines words asciiwords")
    if (which ~ /^(lines|words|asciiwords)$/) return which
    return which (which ~ /n$/ ? " " below(5) : "") " " pattern()
}

function steps(k, word) {
    if (!below(20)) return "-"
    word = ""
    for (k = 1 + below(6); 0 < k; k--) word = word (below(3) ? "F" : "B")
    return word
}

BEGIN {
    srand(seed)
    for (line = 0; line < lines; line++) {
        s = below(12)
        t = below(12)
        kind = below(37)
        if (kind == 0) print "new", t
        else if (kind == 1) print "inline", t, literal(20)
        else if (kind <= 3) print "borrow", t, literal(120) then_text(t)
        else if (kind <= 6) print "copy", t, literal(120) then_text(t)
        else if (kind == 7) print "room", t, below(300)
        else if (kind <= 9) print "clone", s, t
        else if (kind <= 12) print "slice", s, t, range()
        else if (kind <= 15) print "push", t, literal(60)
        else if (kind == 16) print pick("pop clear len kind capacity owned show"), t
        else if (kind == 17) print "truncate", t, below(100)
        else if (kind == 18) print "shrink", t, below(60)
        else if (kind == 19) print pick("upper lower"), t
        else if (kind == 20) print "set", t, below(60), below(256)
        # what is repeated is cut again, so that lengths stay small
        else if (kind == 21) print "repeat", s, t, below(6) "\ntruncate", t, 400
        else if (kind <= 24) print "text", t
        else if (kind == 25) print "bytes", t
        else if (kind == 26) print "trim", s, t, pick("start end both")
        else if (kind == 27) print "trimm", s, t, pick("start end both"), pattern()
        else if (kind == 28) print "strip", s, t, pick("front back"), pattern()
        else if (kind <= 31) print "pieces", s, how(), steps(), below(14)
        else if (kind == 32) print "once", s, t, below(12), pick("front back"), pattern()
        else if (kind == 33) print pick("compare comparepath"), s, t
        else if (kind <= 35) print "mutate", t, literal(60)
        else print "join", s, below(4), literal(4), t "\ntruncate", t, 400
    }
    print "copied"
}
