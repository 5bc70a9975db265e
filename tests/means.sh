# What the error stream of a command on files has behind its results: a sentence for each refusal and each fault, as the
# sources have them. Read by the scripts beside it, which set `here`.

# meaning KIND::NAME: the sentence of a fault or of its cause, of a refusal, or of what is wrong with a document
meaning() {
    awk -v arm="$1" '
        /fn ([a-z_]*_sentence|sentence_of)\(/ { inside = 1 }
        /^}/ { inside = 0 }
        inside && $1 ~ "^" arm "(\\(.*)?$" { found = 1 }
        found && match($0, /".*"/) { print substr($0, RSTART + 1, RLENGTH - 2); exit }
    ' "$here"/crates/outcome_forms/src/{fault_texts,sentences}.rt
}

# meaning_of COMMAND WORD..: the sentence of a refusal with these words
meaning_of() {
    case $2 in
    Doc) meaning "DocFaultKind::$3" ;;
    BadSite) meaning "SitesFault::$3" ;;
    BadScan) meaning "ScanFault::$3" ;;
    Blocked | IdTaken | NumbersSpent | UnknownItem) meaning "Refusal::$2" ;;
    BadLine) if [ "$1" = report ]; then meaning CommandRefusal::BadRecall; else meaning LineRefusal::BadLine; fi ;;
    *) meaning "CommandRefusal::$2" ;;
    esac
}

# changes FILE SQL: SQLite changes rows or tables of a site's file. Its pages have no sums then, which SQLite would spoil.
changes() {
    python3 - "$1" "$2" <<'PYTHON' && mv "$1.new" "$1" && rm -f "$1-wal" "$1-shm"
import sqlite3
import sys

file, change = sys.argv[1:]
new = sqlite3.connect(f'{file}.new', isolation_level=None)
new.execute('attach ? as old', (file,))
for kind, name, declared in new.execute('select type, name, sql from old.sqlite_schema where sql is not null order by rowid').fetchall():
    new.execute(declared)
    if kind == 'table':
        new.execute(f'insert into main."{name}" select * from old."{name}"')
new.execute('detach old')
new.executescript(change)
new.close()
PYTHON
}

# explained COMMAND OUTPUT ERRORS: the error stream of a command that prints this and has these lines of a fault, or notes: of
# several refusals in a row, and of several inputs, those with one sentence are explained once
explained() {
    local command=$1 output=$2 errors=$3 line sentence last= told=
    while IFS= read -r line; do
        case $line in
        'refused '*)
            # shellcheck disable=SC2086
            sentence=$(meaning_of "$command" ${line#refused })
            case $output$errors in
            *'documents '* | *'items '* | 'refused '*'fault '*) [[ $told == *"$sentence"$'\n'* ]] && continue ;;
            *) [ "$sentence" = "$last" ] && continue ;;
            esac
            printf '%s\n' "$sentence"
            told+=$sentence$'\n' last=$sentence
            ;;
        esac
    done <<<"$output"
    case $errors in
    'fault '*)
        line=${errors%%$'\n'*}
        case $errors in
        *': in use by another program') sentence=$(meaning 'Some[(]Cause::InUse[)]') ;;
        *': damaged') sentence=$(meaning 'Some[(]Cause::Damaged[)]') ;;
        *': no space left') sentence=$(meaning 'Some[(]Cause::NoSpace[)]') ;;
        *': no permission') sentence=$(meaning 'Some[(]Cause::NoPermission[)]') ;;
        *) sentence=$(meaning "Fault::${line#fault }") ;;
        esac
        errors+=$'\n'$sentence
        ;;
    esac
    printf '%s\n' "$errors"
}

# without_notes FILE: its lines without what a capture says isn't traced, which tests/json.sh looks at
without_notes() {
    grep -v '^note: ' "$1"
}
