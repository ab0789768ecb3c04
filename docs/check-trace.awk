# The names of the specs, of the code and of the tests, then of the documents against them. See docs/check-trace.

# ---- what there is

function listed(list, item) {
    return list == "" ? item : list ", " item
}
# `name` stands at `place`.
function add(place, name) {
    if ((place, name) in stands) return
    stands[place, name] = 1
    places[name] = listed(places[name], place)
    at_place[place] = listed(at_place[place], name)
    likely[tolower(name)] = name
}
function add_code(module, name) {
    add(module, module "::" name)
    code[name] = listed(code[name], module "::" name)
    in_module[module] = listed(in_module[module], name)
}
function indent(line) {
    match(line, /^ */)
    return RLENGTH
}
function last_part(path) {
    sub(/^.*::/, "", path)
    return path
}

FNR == 1 {
    open = -1
    modules = 0
    marked = 0
    fenced = 0
    if (kind == "spec") {
        here = FILENAME
        sub(/^crates\//, "", here)
        sub(/\/(specs|proofs)\//, "/", here)
        sub(/\.antt$/, "", here)
        spec[here] = 1
    }
    if (kind == "code") {
        here = FILENAME
        sub(/^crates\//, "", here)
        sub(/\/src\/(lib|main)\.rt$/, "", here)
        sub(/\/src\//, "/", here)
        sub(/\.rt$/, "", here)
        gsub(/\//, "::", here)
        type = ""
    }
    if (kind == "test") {
        split(FILENAME, part, "/")
        here = part[1] "/" part[2]
    }
}

kind == "path" {
    path[$0] = 1
    n = split($0, part, "/")
    if (n == 2 && part[1] == "crates") crate[part[2]] = 1
    if (n == 4 && part[3] == "must-fail" && sub(/\.edit$/, "", part[4])) {
        edit[part[2] "/must-fail/" part[4]] = 1
        edits[part[4]] = listed(edits[part[4]], part[2] "/must-fail/" part[4])
    }
}

# A definition stands at the left margin, or in a module two columns to the right of it. The parts of a record or data
# type stand two columns to the right of its name.
kind == "spec" && NF && $1 !~ /^--/ {
    at = indent($0)
    while (at < 2 * modules) modules--
    if (at <= open) open = -1
    w = 1
    while ($w ~ /^(pub|abbrev|unfoldable)$/) w++
    if ($w == "module") modules++
    else if (($w == "record" || $w == "data") && (at == 2 * modules) && $(w + 1) != "{") {
        owner = $(w + 1)
        data = $w == "data"
        open = at
        add(here, owner)
    } else if ($(w + 1) == ":") {
        if (open >= 0 && at == open + 2) {
            add(here, owner "." $w)
            if (data) add(here, $w)
            parts[owner] = listed(parts[owner], $w)
        } else if (at == 2 * modules) add(here, $w)
    }
}

kind == "code" {
    at = indent($0)
    sub(/pub /, "")
    sub(/extern "C" /, "")
    name = $2
    sub(/[^A-Za-z0-9_].*$/, "", name)
    if (at == 0 && $1 ~ /^(impl|fn|struct|enum|const)$/) {
        if ($1 != "impl") add_code(here, name)
        type = $1 ~ /^(impl|enum)$/ ? name : ""
    }
    if (at == 4 && $1 == "fn") {
        add_code(here, name)
        add(here, here "::" type "::" name)
    }
    if (at == 4 && type != "" && $1 ~ /^[A-Z]/) {
        sub(/[^A-Za-z0-9_].*$/, "", $1)
        add(here, here "::" type "::" $1)
    }
}

kind == "header" && ($1 == "#define" || / till_[a-z]+\(/) {
    name = $0
    sub(/^#define /, "", name)
    sub(/^.* till_/, "till_", name)
    sub(/[^A-Za-z0-9_].*$/, "", name)
    if (!(name in code)) add_code("till.h", name)
}

kind == "test" {
    if ($0 ~ /^ *#\[test\]/) marked = 1
    else if (marked && $0 ~ /^ *(pub )?fn /) {
        name = $0
        sub(/^ *(pub )?fn /, "", name)
        sub(/[^A-Za-z0-9_].*$/, "", name)
        add(here, "test " name)
        marked = 0
    }
}

# ---- what the documents cite

function miss(line, words) {
    print FILE ":" line ": " words
    misses++
}
# Where a name stands now; or what may have come in its place.
function now(name, place, near, owner) {
    if (name in places) return "it stands in " places[name]
    near = likely[tolower(name)]
    if (near != "") return "perhaps `" near "` (" places[near] ")"
    owner = name
    if (sub(/\..*$/, "", owner) && (owner in places))
        return "`" owner "` (" places[owner] ") has the parts " parts[owner]
    near = akin(name, place)
    return "it stands nowhere" (near == "" ? "" : "; near it in " place ": " near)
}
# The names at a place that share a word of four letters or more with a name.
function akin(name, place, k, i, n, m, found, near, words, others) {
    sub(/^test /, "", name)
    gsub(/[A-Z]/, "-&", name)
    n = split(tolower(name), words, /[^a-z]+/)
    m = split(at_place[place], others, ", ")
    for (k = 1; k <= m; k++) {
        found = 0
        for (i = 1; i <= n; i++)
            if (length(words[i]) > 3 && index(tolower(others[k]), words[i])) found = 1
        if (found) near = listed(near, others[k])
    }
    return near
}
function code_now(name, last, module) {
    last = last_part(name)
    if (last in code) return "there is " code[last]
    module = substr(name, 1, length(name) - length(last) - 2)
    if (module in in_module) return module " has " in_module[module]
    return "no function, type or constant has this name"
}
function cited_at(line, name, place) {
    cited++
    if (place ~ /^tests\//) {
        if (!((place, "test " name) in stands))
            miss(line, "`" name "` is no test of " place ": " now("test " name, place))
    } else if (!(place in spec))
        miss(line, "there is no " substr(place, index(place, "/") + 1) ".antt in the specs or proofs of " \
            substr(place, 1, index(place, "/") - 1) ", for `" name "`: " now(name))
    else if (!((place, name) in stands)) miss(line, "`" name "` is not in " place ": " now(name, place))
}
# Names that tell their place themselves, and names that tell none.
function cited_alone(line, name, first) {
    if (name ~ /[ ,*&<>()"]/) return
    first = name
    sub(/(\/|::).*$/, "", first)
    if (name ~ /(\/|::)[A-Z]+(\/|\.|::)/ || name ~ /\/out\//) return
    if (name ~ /::/) {
        cited++
        if (!(first in crate)) miss(line, "`" name "`: there is no crate " first ": " code_now(name))
        else if (!(name in places)) miss(line, "there is no `" name "`: " code_now(name))
    } else if (name ~ /\/must-fail\//) {
        cited++
        named[name] = 1
        if (!(name in edit)) {
            first = name
            sub(/^.*\//, "", first)
            miss(line, "there is no edit `" name "`" (first in edits ? ": there is " edits[first] : ""))
        }
    } else if (name ~ /\//) {
        cited++
        sub(/\/$/, "", name)
        if ((first in path) && !(name in path)) miss(line, "there is no file or folder `" name "`")
    } else if (name ~ /^[A-Za-z]+_[A-Za-z_0-9?]+$/) {
        cited++
        if (!(name in code) && !(name in crate) && !(name in edits) && !(("test " name) in places) && !(name in places))
            miss(line, "`" name "` is the name of no definition, function, constant, crate, edit or test")
    } else if (name ~ /^[A-Za-z_?]+[.→↔¬-]/ || name ~ /^[A-Za-z]+[a-z][A-Z]/) {
        if (name ~ /\.(txt|md|rs|rt|antt|edit|sh|a|c|h|page|log)$/) return
        cited++
        if (!(name in places) && !(name in code)) miss(line, "`" name "`: " now(name))
    }
}
# The names at hand, with the place that the words behind them tell, if it is one.
function settle(k, place) {
    gsub(/[ \t]+/, " ", gap)
    place = ""
    if (match(gap, /^ ?\([^ ()]+\/[^ ()]+\)/)) {
        place = substr(gap, 1, RLENGTH)
        gsub(/[ ()]/, "", place)
    }
    for (k = 1; k <= pending; k++) {
        if (place != "" && names[k] !~ /::|\/|[ ,]/) cited_at(lines[k], names[k], place)
        else cited_alone(lines[k], names[k])
    }
    pending = 0
    gap = ""
}

kind == "document" {
    if (FNR == 1) settle()
    FILE = FILENAME
    if ($0 ~ /^```/) fenced = !fenced
    if (NF == 0 || $0 ~ /^(\||#|- |```)/) settle()
    if (fenced || $0 ~ /^(    |```)/) next
    rest = $0
    while ((i = index(rest, "`")) > 0) {
        gap = gap substr(rest, 1, i - 1)
        rest = substr(rest, i + 1)
        i = index(rest, "`")
        if (i == 0) {
            miss(FNR, "a quoted name does not end on its line")
            break
        }
        gsub(/[ \t]+/, " ", gap)
        if (gap !~ /^(, | and | with | or |, and )$/) settle()
        gap = ""
        names[++pending] = substr(rest, 1, i - 1)
        lines[pending] = FNR
        rest = substr(rest, i + 1)
    }
    gap = gap rest " "
}

END {
    settle()
    FILE = "docs/TRACE.md"
    for (name in edit)
        if (!(name in named)) miss(1, "no row cites the edit `" name "`")
    if (misses) {
        print "check-trace: " misses " of " cited " names do not stand where the documents say"
        exit 1
    }
    print "check-trace: " cited " names stand where the documents say"
}
