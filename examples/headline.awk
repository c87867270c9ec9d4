# Holds docs/HEADLINE.md against the definitions: each row of its first table has as many lines as it says, together they have
# as many as it says and no more than the page allows, no word in them needs a definition that the page neither lists nor names
# as known, and each definition that a row names, and each word that the page names as known, is one that they use. A row lists a
# whole file or, by name, some definitions of one, each with the comment above it.
#
#   awk -f examples/headline.awk FILES docs/HEADLINE.md        FILES are the definitions and the laws

function wrong(what) { print FILENAME ":" FNR ": " what; failed = 1 }

# the crate of a module or a path, and its file of definitions
function crate_of(path) { sub(/^Rattle\./, "", path); sub(/[.\/].*/, "", path); return path }
function file_of(module) {
    if (module !~ /\.specs\./ || module ~ /\.specs\.declared\./) return ""
    sub(/^Rattle\./, "", module); sub(/\.specs\./, "/specs/", module); gsub(/\./, "/", module)
    return "crates/" module ".antt"
}

# the word by which a definition of a module is known: a type for its variants
function word_of(module, name) {
    if (module !~ /\.TheVariants$/) return name
    sub(/\.TheVariants$/, "", module); sub(/.*\./, "", module)
    return module
}

function import(text,   module, names, n, i, part) {
    sub(/;$/, "", text)
    if (text ~ / as [A-Za-z_]+$/ && text !~ /\{/) {
        n = split(text, part, / /)
        from[FILENAME, part[n]] = part[n - 2]; original[FILENAME, part[n]] = "*"
        return
    }
    module = text; sub(/\.\{.*/, "", module); sub(/.*use /, "", module)
    names = text; sub(/.*\{/, "", names); sub(/\}.*/, "", names)
    n = split(names, part, /, */)
    for (i = 1; i <= n; i++) {
        split(part[i], word, / as /)
        if (!(2 in word)) word[2] = word[1]
        from[FILENAME, word[2]] = module; original[FILENAME, word[2]] = word[1]
        delete word
    }
}

# a Rust import, of one name or of several, as one of the definitions'
function import_rust(text) {
    gsub(/::/, ".", text)
    if (text !~ /\{/ && match(text, /\.[A-Za-z_0-9]+;$/)) text = substr(text, 1, RSTART) "{" substr(text, RSTART + 1, RLENGTH - 2) "};"
    import(text)
}

# the words of a line of a definition, but for those behind a dot, which are fields
function take_words(text, name) {
    sub(/ *--.*/, "", text)
    while (match(text, /\.?[A-Za-z_][A-Za-z_0-9']*/)) {
        if (substr(text, RSTART, 1) != ".") words[FILENAME, name] = words[FILENAME, name] " " substr(text, RSTART, RLENGTH)
        text = substr(text, RSTART + RLENGTH)
    }
}

FNR == 1 { name = ""; comment = 0; inside = "" }

# ---- laws

FILENAME ~ /\.rt$/ {
    if ($0 ~ /^ghost use /) { import($0); next }
    if ($0 ~ /^use /) { import_rust($0); next }
    if ($0 ~ /^\/\/\//) { comment++; next }
    if ($0 ~ /^pub fn /) { name = $3; sub(/[^a-z_0-9].*/, "", name); defined[FILENAME, name] = 1; size[FILENAME, name] = comment; comment = 0 }
    if (name && $0 ~ /[^ ]/) { size[FILENAME, name]++; take_words($0, name) }
    if ($0 ~ /^\{\}/) name = ""
    next
}

# ---- definitions

FILENAME ~ /\.antt$/ {
    if ($0 ~ /^((pub|unfoldable) )*use /) { import($0); comment = 0; name = ""; next }
    if ($0 !~ /[^ ]/) next
    whole[FILENAME]++
    if ($0 ~ /^module /) { inside = "  "; comment = 0; name = ""; next }
    if ($0 ~ /^[^ ]/) inside = ""
    start = substr($0, 1, length(inside)) == inside && substr($0, length(inside) + 1, 1) != " "
    text = substr($0, length(inside) + 1)
    if (start && text ~ /^--/) { comment++; name = ""; if (text ~ /^-- ----/) comment = 0; next }
    if (start) {
        while (text ~ /^(pub|abbrev|unfoldable|record|data) /) { is_data = text ~ /^data /; sub(/^[a-z]+ /, "", text) }
        sub(/[ :].*/, "", text)
        if (!((FILENAME, text) in defined)) { defined[FILENAME, text] = 1; list[FILENAME] = list[FILENAME] " " text }
        name = text
        size[FILENAME, name] += comment; comment = 0
    }
    if (name == "") next
    size[FILENAME, name]++
    take_words($0, name)
    if (!start && $0 ~ /^ +[A-Z][A-Za-z]* :/) { text = $0; gsub(/^ +| :.*/, "", text); variant_of[FILENAME, text] = name }
    next
}

# ---- the page

/^## / { heading = $0 }
/^\|/ {
    cells = split($0, cell, / *\| */)
    file = cell[2]
    if (heading ~ /files/ && file ~ /^`/ && cell[4] ~ /^[0-9]+$/) {
        gsub(/`/, "", file)
        file = "crates/" file (file ~ /\.rt$/ ? "" : ".antt")
        count = 0
        if (cell[3] == "all") { count = whole[file]; n = split(list[file], part, / /) }
        else { text = cell[3]; gsub(/[`,]/, "", text); n = split(text, part, / /) }
        for (i = 1; i <= n; i++) {
            if (part[i] == "") continue
            if (!((file, part[i]) in defined)) { wrong(file " does not define " part[i]); continue }
            listed[file, part[i]] = 1; row[++rows] = file SUBSEP part[i]
            if (cell[3] != "all") { count += size[file, part[i]]; by_name[file, part[i]] = FILENAME ":" FNR }
        }
        if (count != cell[4]) wrong(file " has " count " lines, not " cell[4])
        total += count
    }
    if (heading ~ /play does/ && file ~ /^`/) {
        gsub(/`/, "", file)
        path = "crates/" file ".antt"
        if (whole[path] != cell[4]) wrong(path " has " whole[path] + 0 " lines, not " cell[4])
        text = cell[3]; gsub(/[`,]/, "", text); n = split(text, part, / /)
        for (i = 1; i <= n && text != "none"; i++) {
            if (!((path, part[i]) in defined)) wrong(path " does not define " part[i])
            known[crate_of(file), part[i]] = FILENAME ":" FNR
        }
    }
    if (heading ~ /known/ && file ~ /^`/) {
        gsub(/[`,]/, "", file)
        where = cell[3]; gsub(/`/, "", where)
        n = split(file, part, / /)
        for (i = 1; i <= n; i++) { known[crate_of(where), part[i]] = FILENAME ":" FNR }
    }
}
match($0, /[0-9]+ lines of at most [0-9]+/) { split(substr($0, RSTART, RLENGTH), part, / /); stated = part[1]; limit = part[6] }

END {
    for (i = 1; i <= rows; i++) {
        split(row[i], at, SUBSEP)
        n = split(words[at[1], at[2]], part, / /)
        for (j = 1; j <= n; j++) {
            w = part[j]
            if ((at[1], w) in variant_of) w = variant_of[at[1], w]
            if ((at[1], w) in defined) { path = at[1]; name = w; crate = crate_of(substr(path, 8)) }
            else if ((at[1], w) in from) {
                module = from[at[1], w]; path = file_of(module); crate = crate_of(module)
                name = word_of(module, original[at[1], w])
                if ((path, name) in variant_of) name = variant_of[path, name]
                if (crate == "std") name = "std"
                # a file that only hands the word on
                for (hops = 0; hops < 3 && path && !((path, name) in defined) && ((path, name) in from); hops++) {
                    module = from[path, name]; name = word_of(module, original[path, name]); path = file_of(module); crate = crate_of(module)
                }
            }
            else continue
            if ((path, name) in listed) { if (path SUBSEP name != row[i]) needed[path, name] = 1; continue }
            if ((crate, name) in known) { used[crate, name] = 1; continue }
            if (!((crate, name) in told)) { told[crate, name] = 1; print "docs/HEADLINE.md: " at[2] " of " at[1] " needs " name " of " (path ? path : crate); failed = 1 }
        }
    }
    for (k in by_name) { split(k, at, SUBSEP); if (!(k in needed) && at[1] !~ /\.rt$/) { print by_name[k] ": nothing that is listed uses " at[2]; failed = 1 } }
    for (k in known) if (!(k in used)) { split(k, at, SUBSEP); print known[k] ": nothing that is listed uses " at[2]; failed = 1 }
    if (total != stated || total > limit) { print "docs/HEADLINE.md: its files have " total " lines, not " stated ", of at most " limit; failed = 1 }
    exit failed
}
