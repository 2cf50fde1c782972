# The promises: every public function has one and asks nothing of its caller, demand 1 is stated of it, docs/PROMISES.md lists it with wrong answers, and
# the edit for each of these was refused because that very function could no longer be proved. And the demands: docs/DEMANDS.md lists their theorems, which
# are there, and for every part of their statements wrong statements, each of which was refused because a law that it names could no longer be proved.

# What C calls is the libraries' again (below), so these three crates are left out.
sources() { find crates/*/src -name '*.rt' ! -path 'crates/branmuslin_c/*' ! -path 'crates/lanes_c/*' ! -path 'crates/frames_c/*'; }

# public_functions: crate::function for each.
public_functions() {
    awk '/^[[:space:]]*pub (extern "C" )?fn / { sub(/^.*fn /, ""); sub(/[^a-z0-9_].*/, ""); split(FILENAME, part, "/"); print part[2] "::" $0 }' $(sources)
}

# public_clauses WORD: crate::function for each public function that has a clause of that kind.
public_clauses() {
    awk -v word="$1" '
        /^[[:space:]]*pub (extern "C" )?fn / { name = $0; sub(/^.*fn /, "", name); sub(/[^a-z0-9_].*/, "", name); split(FILENAME, part, "/"); public = 1 }
        public && $1 == word { print part[2] "::" name; public = 0 }
        /^[[:space:]]*\{$/ || /\{$/ { public = 0 }' $(sources) | sort -u
}

no_public_requires() { ! public_clauses requires | grep .; }

every_public_ensures() { public_clauses ensures | diff - <(public_functions | sort -u); }

# exported CRATE: the signature and the clauses of each of its functions that C calls.
exported() { awk '/^pub extern "C" fn / { on = 1 } on { print } /^\{$/ { on = 0 }' "crates/$1/src/lib.rt"; }

# own_code CRATE LIBRARY: the functions of the crate whose code isn't just the call of the library's function of that name, with what they were given.
own_code() {
    awk -v library="$2" '
        /^pub extern "C" fn / { on = 1; name = $0; sub(/^pub extern "C" fn /, "", name); sub(/\(.*/, "", name); given = "" }
        on && !/^ *ensures / { left = $0; sub(/^pub extern "C" fn [a-z_]+\(/, "", left)
            while (match(left, /[a-z_]+: /)) { given = given (given == "" ? "" : ", ") substr(left, RSTART, RLENGTH - 2); left = substr(left, RSTART + RLENGTH) } }
        /^\{$/ { on = 0; code = ""; inside = 1; next }
        /^\}$/ { gsub(/ +/, " ", code); gsub(/\( /, "(", code); gsub(/,? \)/, ")", code); if (inside && code != " " library "::" name "(" given ")") print name; inside = 0 }
        inside { code = code " " $0 }' "crates/$1/src/lib.rt"
}

# A crate is a library or one for C, and not both: what C calls is the library's function, with the same clauses, and nothing else is in the crate for C: it is one
# file, and each of its functions is one that C calls.
c_calls_the_libraries() {
    local library bad=0
    for library in branmuslin lanes frames; do
        [ -n "$(exported "$library")" ] && diff <(exported "$library") <(exported "${library}_c") && ! own_code "${library}_c" "$library" | grep . || bad=1
        [ "$(echo "crates/${library}_c/src/"*)" = "crates/${library}_c/src/lib.rt" ] &&
            [ "$(grep -cE '(^|[[:space:]])fn ' "crates/${library}_c/src/lib.rt")" -eq "$(grep -c '^pub extern "C" fn ' "crates/${library}_c/src/lib.rt")" ] || bad=1
    done
    return "$bad"
}

# snake WORD, in awk: a type's name as a part of a function's, as u8_from_refusal.
snake='function snake(word) { while (match(word, /[a-z0-9][A-Z]/)) word = substr(word, 1, RSTART) "_" substr(word, RSTART + 1); return tolower(word) }'

# arms: crate::function for each arm of `named` and `function`, over which demand 1 is stated. An arm counts only if it has its signature and its contract from one
# function's module, its name and its code from the same function's, and that is the function that the arm is named after; any other is printed as it is, so that two
# swapped arms, or one that is there twice, can't hide a function that is left out. Equal results are equal values or, of a part of a slice, the same place and octets:
# an arm could else call any two alike. A line that goes on is joined to the one before.
arms() {
    sed -E -e ':more' -e '$!N; s/\n +/ /; t more' -e 'P; D' crates/entries/specs/Functions.antt | awk "$snake"'
        BEGIN { alike = "alike = λ κs r q. (r.ref_ptr ≡ q.ref_ptr) × (r.now ≡ q.now) }" }
        /^use .* as [^ ]+$/ {
            module = $2
            if ($NF in from) print "brought in twice: " $NF
            is_code = sub(/\.Symbol$/, "", module)
            if (sub(/^Rattle\./, "", module) && (is_code ? sub(/\.proofs\./, "::", module) : sub(/\.specs\.contracts\./, "::", module))) {
                if (match(module, /[A-Za-z0-9]+From[A-Za-z0-9]+\.from$/)) module = substr(module, 1, RSTART - 1) snake(substr(module, RSTART, RLENGTH - 5))
                sub(/::.*\./, "::", module); from[$NF] = (is_code ? "code of " : "") module
            } else from[$NF] = "no function"
        }
        /^(named|function) / && $0 != "function (the_entry n) = named n" {
            alias = $0; sub(/\.ended.*/, "", alias); sub(/.* /, "", alias)
            code = $0; sub(/\.code.*/, "", code); sub(/.* /, "", code)
            function_of = (alias in from) ? from[alias] : "no module"
            name = function_of; sub(/.*::/, "", name)
            arm = ($1 == "named" ? "named name." : "function ") name " = "
            valued = arm "valued " alias ".ended (λ M 𝓤. " alias ".clauses) " code ".name " code ".code"
            part = arm "record { ended = " alias ".ended; clauses = λ M 𝓤. " alias ".clauses; name = " code ".name; code = " code ".code; " alike
            if (from[code] == "code of " function_of && ($0 == valued || $0 == part)) print function_of; else print "an arm of another form: " $0
        }'
}

# conversions: crate::to_from_from for each `From`, by the names of its types, but where one of these is a private type of the crate. It is no public function by name,
# but who has the types has it. A `TryFrom` would be printed as what no arm is named.
conversions() {
    awk "$snake"'
        /^ *impl(<.*>)? ([A-Za-z0-9_]+::)*(Try)?From</ {
            head = $0
            while (head !~ /\{/ && (getline more) > 0) head = head " " more
            crate = FILENAME; sub(/^crates\//, "", crate); sub(/\/.*/, "", crate)
            how = head ~ /TryFrom</ ? "_try_from_" : "_from_"
            sub(/^ *impl(<.*>)? ([A-Za-z0-9_]+::)*(Try)?From</, "", head); sub(/ *(where .*)?\{.*/, "", head)
            at = index(head, "> for "); from = substr(head, 1, at - 1); to = substr(head, at + 6)
            sub(/<.*/, "", to); sub(/<.*/, "", from)
            print crate "\t" from "\t" to "\t" crate "::" snake(to) how snake(from)
        }' $(sources) |
        while IFS=$'\t' read -r crate from to name; do
            grep -qE "^ *(pub\([a-z]+\) )?(struct|enum) (${from//[^A-Za-z0-9_]/}|${to//[^A-Za-z0-9_]/})\b" "crates/$crate/src/"*.rt || echo "$name"
        done
}

# Demand 1 is stated of each public function and each conversion between public types, once.
every_function_is_in_demand_1() { diff <({ public_functions | sort -u; conversions; } | sort) <(arms | sort); }

# What an entry promises (`entry`) and its code (`named`) are given for the same names.
every_entry_has_its_code() {
    diff <(sed -nE 's/^entry ([^ ]+) =.*/\1/p' crates/entries/specs/Exported.antt | sort) \
        <(sed -nE 's/^named name\.([^ ]+) =.*/\1/p' crates/entries/specs/Functions.antt | sort)
}

# theorems: 'file name : statement' for each row of the table of theorems in docs/DEMANDS.md, a ? for a file that isn't in the second column.
theorems() { awk -F'`' '/^\| `[^`|]+ : [^`|]+`/ { print ($3 == " | " ? $4 : "?"), $2 }' docs/DEMANDS.md; }

# A theorem stands in its file with just that statement, and the file is one that the checker reads; that rt ci accepted the crate then says that it is
# proved. Nothing else in the repository needs to use a theorem, so rt ci alone accepts the crate as well when the theorem is deleted. The three demands, that
# the runs of demand 2 and 3 are the code's, whose fault no room is, which octet is wrong and whole frame recordings must be listed: else the table could be emptied.
every_theorem_is_there() {
    local file theorem module needed bad=0
    while read -r file theorem; do
        module=${file#*/proofs/}
        grep -qxF "pub $theorem" "crates/$file" || { echo "$file does not have: pub $theorem"; bad=1; }
        grep -qxF "pub mod ${module%.antt}" "crates/${file%%/*}/proofs/Lib.antt" || { echo "proofs/Lib.antt does not declare $file"; bad=1; }
    done < <(theorems)
    for needed in 'demand1 : Demand1' 'demand2 : Demand2' 'demand3 : Demand3' 'runs_are_the_codes : RunsAreTheCodes' 'whose_fault : WhoseFault' \
        'which_octet : WhichOctet' 'whole_frames : WholeFrames'; do
        theorems | grep -E "^[^ ]+ $needed( |\$)" || { echo "docs/DEMANDS.md does not list $needed"; bad=1; }
    done
    return "$bad"
}

# believed FILE: the file of definitions below crates/, its lines without imports and blank lines, and each public definition with its own lines, as docs/DEMANDS.md
# gives them.
believed() {
    awk -v file="$1" '
        /^use / || /^$/ { name = ""; next }
        { lines++ }
        /^--/ { name = "" ; next }
        /^((unfoldable|abbrev) )*pub / { name = $0; sub(/^((unfoldable|abbrev) )*pub (record |data )?/, "", name); sub(/ .*/, "", name); order[++n] = name }
        /^((unfoldable|abbrev) )?[A-Za-z0-9_'"'"']+ :/ || /^(infix|module)/ { name = "" }
        name != "" { own[name]++ }
        END { printf "%s %d", file, lines; for (i = 1; i <= n; i++) printf "%s %s %d", (i > 1 ? "," : ""), order[i], own[order[i]]; print "" }' "crates/$1"
}

# docs/DEMANDS.md says how much a reader has to believe; were a definition missing there, it would be believed unseen.
every_definition_is_counted() {
    local rows
    rows=$(awk -F' *[|] *' '/^\| `[a-z]+\/specs\// { gsub(/`/, ""); print $2, $3 ($5 == "" ? "" : " " $5) }' docs/DEMANDS.md)
    [ -n "$rows" ] && diff <(printf '%s\n' "$rows") <(while read -r file rest; do believed "$file"; done <<<"$rows")
}

# listed_answers: 'crate::function edit' for each wrong answer that docs/PROMISES.md lists.
listed_answers() {
    awk -F'|' '/^\| `[a-z]+::/ { name = $2; gsub(/[ `]/, "", name); answers = $4
        while (match(answers, /`[a-z0-9_]+`/)) { print name, substr(answers, RSTART + 1, RLENGTH - 2); answers = substr(answers, RSTART + RLENGTH) } }' docs/PROMISES.md
}

# impl_functions: crate::function for each function of an impl of a trait. It is no public function of its own, but docs/PROMISES.md may list wrong answers of it too.
impl_functions() {
    awk 'FNR == 1 || /^}/ { inside = 0 }
        /^impl(<.*>)? .* for / { inside = 1 }
        inside && /^ +fn / { sub(/^ *fn /, ""); sub(/[^a-z0-9_].*/, ""); split(FILENAME, part, "/"); print part[2] "::" $0 }' $(sources)
}

every_function_has_two_wrong_answers() {
    diff <(public_functions | sort -u) \
        <(listed_answers | awk '{ seen[$1]++ } END { for (name in seen) if (seen[name] > 1) print name }' | grep -vxFf <(impl_functions) | sort -u)
}

# stated_edits: 'crate::statement edit file law' for each row of the table of wrong statements in docs/DEMANDS.md: the first text in backquotes of the first two
# columns, and the first two of the third. A ? stands for one that is missing, which no log has.
stated_edits() {
    awk -F'|' '
        function quoted(text, n, part) { return 2 * n < split(text, part, "`") ? part[2 * n] : "?" }
        /^\| `[a-z]+::/ { print quoted($2, 1), quoted($3, 1), quoted($4, 1), quoted($4, 2) }' docs/DEMANDS.md
}

# demanded_fields: crate::Record.field for each part of the demands, of what demand 1 asks of every entry, and of the laws of 19 and 27, of the place and of frames;
# a record is looked for in every crate, and one that isn't found is printed, since it would else have no part that lacks a row.
demanded_fields() {
    local record
    for record in Demand1 Demand2 Demand3 Asked WhoseFault WhichOctet WholeFrames; do
        awk -v record="$record" '
            FNR == 1 || /^[^ ]/ { inside = $0 ~ "^pub record " record "[ :]"; split(FILENAME, part, "/") }
            inside && /^  [^ -].* :( |$)/ { sub(/ :( .*)?$/, ""); sub(/^  (pub )?/, ""); for (i = 1; i <= NF; i++) print part[2] "::" record "." $i; found = 1 }
            END { if (!found) print "no record " record }' crates/*/specs/*.antt
    done
}

# A part that no wrong statement is listed for might say nothing; a row for a part that isn't there says nothing of any.
every_field_has_a_wrong_statement() {
    diff <(demanded_fields | sort -u) <(stated_edits | awk '$1 ~ /::(Demand[123]|Asked|WhoseFault|WhichOctet|WholeFrames)\./ { print $1 }' | sort -u)
}

# Every edit is listed by its crate and name: once under a function, where it counts as one wrong answer, or else in docs/DEMANDS.md, where one edit may be wrong
# in several parts.
every_edit_is_listed() {
    diff <(printf '%s\n' crates/*/must-fail/*.edit | sed -E 's|^crates/(.*)/must-fail/(.*)\.edit$|\1 \2|' | sort) \
        <({ listed_answers | sed 's/::[^ ]*//' && stated_edits | awk '{ sub(/\/.*/, "", $3); print $3, $2 }' | sort -u; } | sort)
}

# refused_for CRATE EDIT: the place of what rt ci names as the first that could no longer be proved with that edit, and what is said of it. There is none where the
# edit only took away a name, or where the prover met a limit of its own.
refused_for() { sed -nE "s|^rt: must-fail $1/$2\.edit: refused, as it must be: (note: )?(\./)?||p" "$work/rt-ci"; }

# function_at FILE LINE: the function whose code has that line, or whose attributes do.
function_at() {
    awk -v line="$2" '
        /^ *(pub(\([a-z]+\))? )?(extern "C" )?fn / { name = $0; sub(/^.*fn /, "", name); sub(/[^a-z0-9_].*/, "", name); if (wanted) { print name; exit } }
        FNR == line { if (/^#/) wanted = 1; else { print name; exit } }' "$1"
}

# called_by CRATE FUNCTION: the function, those of its crate that it calls or hands to a `map`, and those that these call, by name.
called_by() {
    awk -v wanted="$2" '
        /^ *(pub(\([a-z]+\))? )?(extern "C" )?fn / { name = $0; sub(/^.*fn /, "", name); sub(/[^a-z0-9_].*/, "", name); functions[name] = 1; next }
        { left = $0; while (match(left, /[a-z_][a-z0-9_]*\(/)) { calls[name] = calls[name] " " substr(left, RSTART, RLENGTH - 1); left = substr(left, RSTART + RLENGTH) } }
        { left = $0; while (match(left, /map\([a-z_][a-z0-9_]*\)/)) { calls[name] = calls[name] " " substr(left, RSTART + 4, RLENGTH - 5); left = substr(left, RSTART + RLENGTH) } }
        END {
            todo[last = 1] = wanted
            for (i = 1; i <= last; i++) {
                if (!(todo[i] in functions) || todo[i] in done) continue
                print todo[i]; done[todo[i]] = 1
                n = split(calls[todo[i]], called, " ")
                for (k = 1; k <= n; k++) todo[++last] = called[k]
            }
        }' "crates/$1/src"/*.rt
}

# laws_of CRATE FUNCTION: the files of laws on which the proofs of the function and of those that it calls stand, straight or by way of other files of laws; and these
# proofs' own files.
laws_of() {
    local name files more
    mapfile -t files < <(called_by "$1" "$2" | while read -r name; do find "crates/$1/proofs" -path "*/$name/*.antt"; done | sort -u)
    while [ "${#files[@]}" -gt 0 ]; do
        mapfile -t more < <({ printf '%s\n' "${files[@]}" && sed -nE "s|^(ghost )?use Rattle\.$1\.proofs\.([A-Z][A-Za-z0-9]*)[. ].*|crates/$1/proofs/\2.antt|p" "${files[@]}"; } | sort -u |
            while read -r name; do [ ! -e "$name" ] || printf '%s\n' "$name"; done)
        [ "${#more[@]}" -gt "${#files[@]}" ] || break
        files=("${more[@]}")
    done
    printf '%s\n' "${files[@]}"
}

# What is said where only the form of a proof broke: a name or an argument that is no longer there, or a proof file that no longer has what the code asks for. That is
# no answer about a fact, so an edit that is refused so counts for nothing.
only_form='has no (field|`)|binders, but its type|does not cover this function'

# The first that is not proved is that very function or one that it calls: their own code, or what their own proof files say; or, of an edit of a definition, a law of
# the crate on which their proofs stand. This alone does not show that the edited code is wrong: a proof may also fail where right code was written in another way.
# So an edit keeps the code's form (below): what it changes is a constant, a variable or an argument, and the same form with the right one is proved.
stands_at_a_fact() {
    local crate=${1%%::*} place file line
    place=$(refused_for "$crate" "$2")
    printf 'refused: %s\n' "$place"
    ! grep -E "$only_form" <<<"$place" || return
    file=${place%%:*} line=${place#*:}
    case $file in
    src/*) called_by "$crate" "${1##*::}" | grep -xF "$(function_at "crates/$crate/$file" "${line%%:*}")" ;;
    proofs/*/*.antt) file=${file%/*} && called_by "$crate" "${1##*::}" | grep -xF "${file##*/}" ;;
    proofs/*.antt) grep '^file: specs/' "crates/$crate/must-fail/$2.edit" && laws_of "$crate" "${1##*::}" | grep -xF "crates/$crate/$file" ;;
    *) false ;;
    esac
}

# stands_at_a_law EDIT FILE LAW: the first that is not proved is that very law in that file. The edit is one of a statement or a definition, since an edit of a proof
# is refused at its law too, whatever the statement.
stands_at_a_law() {
    local crate=${2%%/*} place
    place=$(refused_for "$crate" "$1")
    printf 'refused: %s\n' "$place"
    ! grep -E "$only_form" <<<"$place" || return
    grep '^file: specs/' "crates/$crate/must-fail/$1.edit" && [[ $place =~ ^${2#*/}:[0-9]+:[0-9]+:\ error:\ \`$3\`:\  ]] && [[ $place != *'was not admitted'* ]]
}

# operators WORD EDIT: those in the lines of an edit of code that begin with WORD, in their order; text in quotes has none, and the bars of a closure and the brackets around type arguments are none.
operators() {
    grep -q '^file: src/' "$2" || return
    grep "^$1" "$2" | sed -E "s/^$1//; s/b?\"[^\"]*\"|b?'[^']*'//g; s/=>|->//g; s/\|[a-z_]+\|//g; s/::<[^<>]*>//g" | grep -oE '<=|>=|==|!=|&&|\|\||[<>!+*/%|^]|&( |mut )|-' | tr '\n' ' '
}

# An edit of code changes no operator: the proof of `a < b` does not fit `a <= b` either where that would be right.
every_edit_keeps_the_operators() {
    local edit bad=0
    for edit in crates/*/must-fail/*.edit; do
        [ "$(operators old: "$edit")" = "$(operators new: "$edit")" ] || { echo "$edit"; bad=1; }
    done
    return "$bad"
}

check 'no public function has a requires' no_public_requires
check 'every public function has an ensures' every_public_ensures
check 'what C calls is the libraries, with the same clauses' c_calls_the_libraries
check 'every public function is in demand 1' every_function_is_in_demand_1
check 'docs/PROMISES.md has two wrong answers for every public function' every_function_has_two_wrong_answers
check 'every entry of demand 1 has its code' every_entry_has_its_code
check 'every theorem that docs/DEMANDS.md lists is there' every_theorem_is_there
check 'docs/DEMANDS.md counts the definitions that must be believed' every_definition_is_counted
check 'docs/DEMANDS.md has a wrong statement for every part of the demands' every_field_has_a_wrong_statement
check 'docs/PROMISES.md and docs/DEMANDS.md list the must-fail edits' every_edit_is_listed
check 'every must-fail edit of code keeps its operators' every_edit_keeps_the_operators
while read -r function edit; do
    check "$function rules out $edit" stands_at_a_fact "$function" "$edit"
done < <(listed_answers)
while read -r statement edit file law; do
    check "$statement rules out $edit, by $law" stands_at_a_law "$edit" "$file" "$law"
done < <(stated_edits)
