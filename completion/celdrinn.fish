# Completion of celdrinn's words in fish. Load it by: source completion/celdrinn.fish
# It is made by packaging/words.sh.

# Whether the word at the cursor is a name of a file. Options may stand anywhere, so names are counted.
function __celdrinn_wants_file
    set -l given (commandline -opc)
    set -l kinds
    switch "$given[2]"
        case simplify
            set kinds f f f
        case check
            set kinds f f f
        case rebuild
            set kinds f f f f f
        case annotate
            set kinds f f f f
        case refute
            set kinds f f f f f
        case extract
            set kinds f f f
        case disprove
            set kinds f f f
        case miter
            set kinds f f f
        case validate
            set kinds f f
        case certify
            set kinds f f
        case solve
            set kinds f f f f
        case gen
            set kinds n n f
        case demo
            set kinds n n f f f
        case apply
            set kinds f f f
        case mend
            set kinds f f
        case '*'
            return 1
    end
    set -l names (string match -v -- '-*' $given[3..-1])
    set -l place (math (count $names) + 1)
    test $place -le (count $kinds); and test "$kinds[$place]" = f
end

# Whether options of this command may stand at the cursor.
function __celdrinn_wants_option
    set -l given (commandline -opc)
    contains -- "$given[2]" $argv
end

function __celdrinn_is_first
    test (count (commandline -opc)) -eq 1
end

function __celdrinn_is_help
    set -l given (commandline -opc)
    test (count $given) -eq 2 -a "$given[2]" = help
end

complete -c celdrinn -f
complete -c celdrinn -n __celdrinn_wants_file -F
for where in __celdrinn_is_first __celdrinn_is_help
    complete -c celdrinn -n $where -a simplify -d 'writes a simpler formula OUT and a QRAT log of every change'
    complete -c celdrinn -n $where -a check -d 'checks that LOG leads from IN to OUT by valid steps'
    complete -c celdrinn -n $where -a rebuild -d 'carries Skolem circuits of OUT back to circuits of IN'
    complete -c celdrinn -n $where -a annotate -d 'checks LOG and writes it with hints'
    complete -c celdrinn -n $where -a refute -d 'carries Herbrand circuits of a false OUT back to IN'
    complete -c celdrinn -n $where -a extract -d 'makes circuits of a solvers trace'
    complete -c celdrinn -n $where -a disprove -d 'says whether a SAT solvers proof, or a log, shows that IN is false'
    complete -c celdrinn -n $where -a miter -d 'writes clauses that are false exactly where circuits are right'
    complete -c celdrinn -n $where -a validate -d 'says whether circuits are Skolem functions of IN'
    complete -c celdrinn -n $where -a certify -d 'gives an answer with a certificate, by solvers that nobody has to trust'
    complete -c celdrinn -n $where -a solve -d 'simplifies and decides a small formula, with circuits'
    complete -c celdrinn -n $where -a gen -d 'writes a random formula of SIZE clauses'
    complete -c celdrinn -n $where -a demo -d 'does gen, simplify and check, one after the other'
    complete -c celdrinn -n $where -a apply -d 'writes the formula to which a log leads, as far as it goes'
    complete -c celdrinn -n $where -a mend -d 'writes a formula anew where it is not quite of the form that is read'
end
complete -c celdrinn -n __celdrinn_is_help -a causes -d 'what the causes of a refusal mean'
complete -c celdrinn -n __celdrinn_is_first -a help -d 'prints the commands, or the options of one'
complete -c celdrinn -n __celdrinn_is_first -l help -d 'prints the commands'
complete -c celdrinn -n __celdrinn_is_first -l version -d 'prints the version and what it was proved with'
complete -c celdrinn -n '__celdrinn_wants_option simplify validate solve' -a --budget= -d 'stops after so much'
complete -c celdrinn -n '__celdrinn_wants_option simplify solve' -a --grow= -d 'by how much an elimination may let the formula grow'
complete -c celdrinn -n '__celdrinn_wants_option simplify solve' -a --expand= -d 'by how much an expansion may let the formula grow'
complete -c celdrinn -n '__celdrinn_wants_option simplify' -a --time= -d 'stops after so many seconds, and writes what is reached'
complete -c celdrinn -n '__celdrinn_wants_option simplify' -a --plain -d 'leaves extended universal reduction out, over which refute carries nothing back'
complete -c celdrinn -n '__celdrinn_wants_option check annotate disprove' -a --part= -d 'judges every Nth block of 1,000 steps, and makes the others'
complete -c celdrinn -n '__celdrinn_wants_option annotate disprove' -a --binary -d 'reads as a binary proof what could be a text'
complete -c celdrinn -n '__celdrinn_wants_option miter validate' -a --herbrand -d 'takes circuits of the universals'
complete -c celdrinn -n '__celdrinn_wants_option simplify' -a --best -d 'tries large expansions beside it, for so many seconds, and keeps the better end'
complete -c celdrinn -n '__celdrinn_wants_option validate' -a --with= -d 'asks a SAT solver, as cadical'
complete -c celdrinn -n '__celdrinn_wants_option validate certify solve' -a --seconds= -d 'stops after so many seconds'
complete -c celdrinn -n '__celdrinn_wants_option certify' -a --check -d 'tests the circuits once more'
complete -c celdrinn -n '__celdrinn_wants_option simplify check rebuild annotate refute extract disprove miter validate solve apply' -a --stats -d 'says at the end what was done, and what it took'
complete -c celdrinn -n '__celdrinn_wants_option simplify rebuild annotate refute extract disprove miter certify solve gen demo apply mend' -a --force -d 'writes over a formula that is there'
complete -c celdrinn -n '__celdrinn_wants_option simplify check rebuild annotate refute extract disprove miter validate certify solve gen demo apply mend' -a --quiet -d 'says nothing that is no answer'
complete -c celdrinn -n '__celdrinn_wants_option simplify check rebuild annotate refute extract disprove miter validate certify solve gen demo apply mend' -a --verbose -d 'says what it does, wherever standard error leads'
