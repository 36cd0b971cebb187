# words.awk -v bytes=N   A text of at least N bytes: words of 2 to 12 letters out of some 60,000, a few of them frequent, with marks
# and line feeds between them. The same each time.
function next_number() { seed = (seed * 69069 + 1) % 4294967296; return seed / 4294967296 }
BEGIN {
    seed = 42
    for (i = 0; i < 60000; i++) {
        word = ""
        letters = 2 + int(next_number() * 11)
        for (k = 0; k < letters; k++) word = word sprintf("%c", 97 + int(next_number() * 26))
        words[i] = i % 50 == 0 ? word "\303\251" : word
    }
    while (written < bytes) {
        line = ""
        for (k = 0; k < 12; k++) {
            share = next_number()
            line = line words[int(share * share * share * 60000)] (next_number() < 0.1 ? ", " : " ")
        }
        print line
        written += length(line) + 1
    }
}
