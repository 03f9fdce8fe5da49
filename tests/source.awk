# source.awk: reads Rattle source for tests/promises, tests/unique and tests/numbers.
#
# A search line by line would take a comment for code and a brace of a contract for the start of a
# body. So scan(path) splits a file into tokens, leaves out comments, literals, lifetimes and the
# text of contracts, and calls seen(t), which the check defines, for each token t. A file of a crate's
# out/, where rt keeps copies of what it has read, is no source. It keeps
#
#   file, line, prev, prev2   where the token stands, and the two tokens before it
#   top, kind[], name[]       the open braces: "mod", "impl", "fn" or "" for another, and their names
#   head, head_line           the function whose head was read last, and where it starts
#   is_pub, has[]             whether that is `pub`, and which clauses stand in its head

function scan(path,   text, got) {
    if (path ~ /^crates\/[^\/]*\/out\//) return
    file = path
    line = top = block = quoted = antt = visible = 0
    prev = prev2 = clause = pending = ""
    while ((got = (getline text < path)) > 0) {
        line++
        split_line(text)
    }
    close(path)
    # A check that lost its way must not pass what it did not read.
    if (got < 0 || top || block || quoted || antt)
        fault(line, path, "cannot be read to its end: a brace, a comment or a string stays open")
}

function fault(at, who, what) {
    print file ":" at ": " who ": " what
    faults++
}

# The text of a contract, of a ghost item and of a `ghost use` is antt's, where comments are written `--` and `{- -}`
# and a quote may be part of a name.
function split_line(s,   length_of) {
    while (s != "") {
        if (block) { # a block comment may hold another
            if (!match(s, antt ? "[{]-|-[}]" : "/[*]|[*]/")) return
            block += index("/{", substr(s, RSTART, 1)) ? 1 : -1
            s = substr(s, RSTART + 2)
            continue
        }
        if (quoted) {
            if (!match(s, /^([^"\\]|\\.)*"/)) return
            quoted = 0
            s = substr(s, RLENGTH + 1)
            continue
        }
        if (antt ? s ~ /^--/ : s ~ /^\/\//) return
        length_of = 1
        if (antt ? s ~ /^[{]-/ : s ~ /^\/[*]/) {
            block = 1
            length_of = 2
        } else if (!antt && match(s, /^b?r#*"/)) {
            fault(line, "raw text", "these checks do not read it: write it as b\"..\" with escapes")
            return
        } else if (match(s, antt ? "^\"" : "^b?\"")) {
            quoted = 1
            length_of = RLENGTH
        } else if (!antt && (match(s, /^b?'([^\\']|\\.[^']*)'/) || match(s, /^'[A-Za-z_0-9]+/))) {
            length_of = RLENGTH
        } else if (match(s, /^[A-Za-z_0-9]+/)) {
            length_of = RLENGTH
            token(substr(s, 1, length_of))
        } else if (s !~ /^[ \t\r]/) {
            token(substr(s, 1, 1))
        }
        s = substr(s, length_of + 1)
    }
}

function token(t) {
    if (antt) {
        if (t == "{") antt++
        else if (t == "}" || (t == until && antt == 1)) antt--
        return
    }
    if (t == "{" && clause != "") {
        antt = 1
        until = "}"
        clause = ""
        return
    }
    if (t == "use" && prev == "ghost") {
        antt = 1
        until = ";"
        clause = ""
        return
    }
    structure(t)
    seen(t)
    prev2 = prev
    prev = t
}

function structure(t) {
    if (t == "{") {
        kind[++top] = pending
        name[top] = label
        pending = ""
    } else if (t == "}") {
        if (top) top--
        else fault(line, "}", "closes nothing")
    } else if (t == "ghost" || pending == "fn" && (t == "requires" || t == "ensures")) {
        clause = t
        has[t] = 1
    } else if (pending == "fn") {
        return # the rest of a head: its parameters and its result
    } else if (t !~ /^[A-Za-z_]/) {
        if (t == ";") pending = ""
    } else if (prev == "fn") {
        pending = "fn"
        label = head = t
        head_line = line
        is_pub = visible
        split("", has)
    } else if (prev == "mod" || prev == "impl" || pending == "impl") {
        # `impl a::Type` names its type last.
        if (pending != "impl") pending = prev
        label = t
    }
    # `pub(crate)` is not public; `pub const X` is no function.
    if (t == "pub") visible = 1
    else if (t !~ /^(extern|const|unsafe|fn)$/) visible = 0
}

# The name of the innermost open `fn`, `impl` or `mod`.
function within(what,   i) {
    for (i = top; i > 0; i--) if (kind[i] == what) return name[i]
    return ""
}

# The full name of a function here: crate::Type::method, crate::function, crate::module::function.
function full(short,   part, path, i) {
    split(file, part, "/")
    if (within("impl") != "") return part[2] "::" within("impl") "::" short
    path = file
    sub(/^crates\/[^\/]*\/src\//, "", path)
    sub(/\.rt$/, "", path)
    path = path == "lib" || path == "main" ? "" : path "::"
    gsub(/\//, "::", path)
    for (i = 1; i <= top; i++) if (kind[i] == "mod") path = path name[i] "::"
    return part[2] "::" path short
}
