# Holds what the program says of its commands against the documents, and prints the line of what does not fit:
#
#   crates/sporc_words/src     the overview of command.rt has at most 24 lines of 80 columns, a page lines of 75; each command of the
#                              overview has a page, which begins with its words
#   docs/MANUAL.md             its first indented block is the overview's list of commands, line by line; each command
#                              has a heading of its words, and in the block's order
#
# Run by examples/documents, on command.rt and pages.rt, the commands' files beside them, and MANUAL.md.
function wrong(what) { print FILENAME ":" FNR ": " what; failed = 1 }

# The words of a line of the overview: up to two spaces.
function words_of(text) { sub(/^ +/, "", text); sub(/  .*/, "", text); return text }
function first_of(text) { sub(/[ ,].*/, "", text); return text }

FNR == 1 { name = ""; block = 0; heads = 0 }

# ---- the pages

FILENAME ~ /\.rt$/ && /^pub const [A-Z_]+: &str = "\\$/ { name = $3; sub(/:/, "", name); lines = 0; head = ""; next }
FILENAME ~ /\.rt$/ && name && /^";$/ {
    if (name == "OVERVIEW" && lines > 24) wrong("the overview has " lines " lines")
    if (name != "OVERVIEW") {
        page[first_of(head)] = head
        if (!(first_of(head) in listed)) wrong("the overview does not have " head)
        else if (listed[first_of(head)] != head) wrong("the overview has " listed[first_of(head)] ", the page " head)
    }
    name = ""
    next
}
FILENAME ~ /\.rt$/ && name {
    lines++
    if (length($0) > (name == "OVERVIEW" ? 80 : 75)) wrong("a line of " length($0) " columns")
    if (name == "OVERVIEW" && /^  /) {
        overview[++commands] = substr($0, 3)
        command = first_of(words_of($0))
        if (command in listed) listed[command] = listed[command] ", " words_of($0)
        else { order[++kinds] = command; listed[command] = words_of($0) }
    }
    if (name != "OVERVIEW" && $0 == "") ended = 1
    if (lines == 1) ended = 0
    if (name != "OVERVIEW" && !ended) { text = $0; sub(/^sporc /, "", text); head = head ? head ", " text : text }
    next
}
FILENAME ~ /\.rt$/ { next }

# ---- the manual

FILENAME ~ /MANUAL\.md$/ && /^    / && block <= commands && heads == 0 {
    shown = ++block
    if (substr($0, 5) != overview[block]) wrong("the overview has " (block > commands ? "no more commands" : overview[block]))
    next
}
FILENAME ~ /MANUAL\.md$/ && /^### / {
    text = substr($0, 5)
    if (heads < kinds && first_of(text) in listed) {
        if (first_of(text) != order[++heads]) wrong("here the overview has " listed[order[heads]])
        else if (text != listed[order[heads]]) wrong("the overview has " listed[order[heads]])
    }
    next
}

{ seen[FILENAME] = heads }

END {
    for (file in seen) if (seen[file] != kinds) { print file ": " seen[file] " of " kinds " commands"; failed = 1 }
    if (shown != commands) { print "docs/MANUAL.md: " shown " of " commands " lines of the overview"; failed = 1 }
    if (!kinds) { print "no overview"; failed = 1 }
    for (k = 1; k <= kinds; k++) if (!(order[k] in page)) { print "crates/sporc_words/src: no page of " order[k]; failed = 1 }
    exit failed
}
