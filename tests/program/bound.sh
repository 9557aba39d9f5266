#!/usr/bin/env bash
# Runs `inrc2pb-bound`, and checks its exit status and its output: bounds of weeks whose optimum solvers proved, of a month, by cases and
# under facts, faults in the order of the checks, and its words. tests/random/random_bounds.sh compares it with all plans of tiny periods.
#
#   tests/program/bound.sh [llvm | rattle | PROGRAM]
#
# Needs bash, the usual tools of a shell and Python 3.11.
. "$(dirname "$0")/../kit/kit.sh"
encoder=$program
needs_bound
program=$bound
program_name=inrc2pb-bound

examples=$PWD/examples
five=(--sce "$examples/n005w4/ward.txt" --his "$examples/n005w4/history-0.txt" --week "$examples/n005w4/week-0.txt")
thirty=(--sce "$examples/thirty/ward.txt" --his "$examples/thirty/history-3.txt" --week "$examples/thirty/week-3.txt")
eight=(--sce "$examples/eight/ward.txt" --his "$examples/eight/history-1.txt" --week "$examples/eight/week-1.txt")
month=(--sce "$examples/month/ward.txt" --his "$examples/month/history-0.txt" --week "$examples"/month/week-{0,1,2,3}.txt)
proof=(--proof "$examples/n005w4/certificate.txt")

# certificate NAME WEEKS LINE..: a certificate for this number of weeks of the base: these are its lines after the number of the weeks.
certificate() { printf '%s\n' CERTIFICATE s1 '' "WEEKS = $2" "${@:3}" > "$room/$1"; }

# prices NAME [ROW..]: a certificate of one leaf for a week.
prices() { certificate "$1" 1 'PRICES = 1' "ROWS = $(($# - 1))" "${@:2}" 'LEAVES = 1' 'LEAF 0 SURCHARGES = 0'; }

# facts NAME ROW..: a file of facts.
facts() { printf '%s\n' FACTS s1 '' "ROWS = $(($# - 1))" "${@:2}" > "$room/$1"; }

# says WHAT LINES WORD..: the program prints these lines.
says() {
    printf '%b' "$2" > "$room/wanted"
    run "$1" 0 wanted nothing "${@:3}"
}

# The optima are in docs/search.md.
proves_optima() {
    "$encoder" decode "${five[@]}" --answer "$examples/n005w4/answers/clasp.txt" --sol "$room/five" > "$room/report" || complain 'no roster'
    says 'five nurses' 'lower bound 320\npenalty 320\noptimal\n' "${five[@]}" "${proof[@]}" --roster five
    says 'five nurses without prices' 'lower bound 40\npenalty 320\n' "${five[@]}" --roster five
    says 'thirty nurses' 'lower bound 605\n' "${thirty[@]}" --proof "$examples/thirty/certificate.txt"
    local ward folder
    for ward in last60:460 last120:1005; do
        folder=$examples/${ward%:*}
        says "${ward%:*}, where prices of 0 suffice" "lower bound ${ward#*:}\n" \
            --sce "$folder/ward.txt" --his "$folder/history-3.txt" --week "$folder/week-3.txt"
    done
    says 'eight nurses' 'no roster exists\n' "${eight[@]}" --minimums --proof "$examples/eight/certificate.txt"
    says 'eight nurses without prices' 'no proof that no roster exists\n' "${eight[@]}" --minimums
    says 'five nurses, the minimums' 'no proof that no roster exists\n' "${five[@]}" "${proof[@]}" --minimums
}

# The bounds of one leaf and of prices of 0 are those that the Python programs compute. In the even case 1815 is rounded up.
bounds_a_month() {
    local table
    table=$(sed -n '/^PRICES/,/^LEAVES/p' "$examples/month/certificate.txt" | sed '$d')
    certificate even_month 4 "$table" 'LEAVES = 1' 'LEAF 0 SURCHARGES = 0'
    facts even 'HOLDS EVEN'
    facts odd 'NOT EVEN'
    says 'a month' 'lower bound 1815\n' "${month[@]}" --proof "$examples/month/certificate.txt"
    says 'a month by two cases' 'lower bound 1820\n' "${month[@]}" --proof "$examples/month/two_cases.txt"
    says 'a month, charged early' 'lower bound 1815\n' "${month[@]}" --early --proof "$examples/month/certificate.txt"
    says 'a month without prices' 'lower bound 130\n' "${month[@]}"
    says 'a month with an even number of charges of shift runs' 'lower bound 1820\n' "${month[@]}" --given even --proof even_month
    says 'a month with an odd one' 'lower bound 1815\n' "${month[@]}" --given odd --proof even_month
}

# The base: one nurse, who works at least one day in a row.
bounds_the_base() {
    prices twos 'Day Nurse 2000 2000 2000 2000 2000 2000 2000'
    prices none
    says 'a roster of nobody' 'lower bound 0\npenalty 0\noptimal\n' "${week[@]}" --roster nobody
    says 'prices that are too high' 'lower bound 0\n' "${week[@]}" --proof twos
    says 'prices without a row' 'lower bound 0\n' "${week[@]}" --proof none
    says 'a held Wednesday' 'lower bound 0\npenalty 0\noptimal\n' "${week[@]}" --fix wednesday --roster wednesday
    says 'a shift type that nobody should work' 'lower bound 15\npenalty 15\noptimal\n' \
        --sce closed.txt --his history.txt --week week.txt --fix monday --roster monday
    says 'two held cells of a day' 'no roster exists\n' --sce two_shifts.txt --his history.txt --week week.txt --fix both_shifts --minimums
    says 'two held days, of which the second may not follow' 'no roster exists\n' \
        --sce no_two.txt --his history.txt --week week.txt --fix two_days --minimums
}

# A shift on Monday costs Ann 15, and 30 are charged if nobody works there: 30 if she is off there, and 15 if she works. In an odd case the
# penalty is no multiple of 10, so that it is at least 5.
bounds_by_cases() {
    local closed=(--sce closed.txt --his history.txt --week wanted.txt) lists=('PRICES = 2' 'ROWS = 1' 'Day Nurse 30000 0 0 0 0 0 0' 'ROWS = 0') choice
    changed week.txt wanted.txt 3 'REQUIREMENTS\nDay Nurse (0,1) (0,0) (0,0) (0,0) (0,0) (0,0) (0,0)'
    for choice in None Day; do
        certificate "monday_$choice" 1 "${lists[@]}" 'LEAVES = 2' "SPLIT CHOICE 1 Ann Mon $choice" 'LEAF 0 SURCHARGES = 0' 'LEAF 0 SURCHARGES = 0'
    done
    certificate one 1 "${lists[@]}" 'LEAVES = 1' 'LEAF 0 SURCHARGES = 0'
    certificate place 1 "${lists[@]}" 'LEAVES = 2' 'SPLIT PLACE 1 Mon Day Nurse 0' 'LEAF 1 SURCHARGES = 0' 'LEAF 1 SURCHARGES = 0'
    certificate priced_place 1 "${lists[@]}" 'LEAVES = 2' 'SPLIT PLACE 1 Mon Day Nurse 0' 'LEAF 1 SURCHARGES = 0' 'LEAF 0 SURCHARGES = 0'
    certificate even 1 "${lists[@]}" 'LEAVES = 2' 'SPLIT EVEN' 'LEAF 0 SURCHARGES = 0' 'LEAF 0 SURCHARGES = 0'
    certificate runs 1 "${lists[@]}" 'LEAVES = 2' 'SPLIT CHARGES SHIFT_RUNS ALL 0' 'LEAF 0 SURCHARGES = 0' 'LEAF 1 SURCHARGES = 1 15000'
    certificate odd 1 "${lists[@]}" 'LEAVES = 2' 'SPLIT EVEN' 'LEAF 0 SURCHARGES = 0' 'LEAF 1 SURCHARGES = 1 15000'
    certificate odd_free 1 "${lists[@]}" 'LEAVES = 2' 'SPLIT EVEN' 'LEAF 0 SURCHARGES = 1 15000' 'LEAF 1 SURCHARGES = 0'
    certificate dear 1 "${lists[@]}" 'LEAVES = 2' 'SPLIT CHARGES SHIFT_RUNS NURSE Ann 0' 'LEAF 0 SURCHARGES = 0' 'LEAF 1 SURCHARGES = 1 15001'
    certificate siblings 1 "${lists[@]}" 'LEAVES = 4' 'SPLIT EVEN' 'SPLIT CHOICE 1 Ann Mon None' 'LEAF 0 SURCHARGES = 0' \
        'LEAF 0 SURCHARGES = 0' 'SPLIT CHOICE 1 Ann Mon None' 'LEAF 0 SURCHARGES = 0' 'LEAF 0 SURCHARGES = 0'
    facts monday_off 'HOLDS CHOICE 1 Ann Mon None'
    says 'no prices' 'lower bound 0\npenalty 15\n' "${closed[@]}" --roster monday
    says 'one leaf' 'lower bound 15\n' "${closed[@]}" --proof one
    says 'a day off, or not' 'lower bound 15\npenalty 15\noptimal\n' "${closed[@]}" --proof monday_None --roster monday
    says 'a day off, or not, and a roster without a shift' 'lower bound 15\npenalty 30\n' "${closed[@]}" --proof monday_None --roster nobody
    says 'a shift, or not' 'lower bound 15\n' "${closed[@]}" --proof monday_Day
    says 'a place with nobody, or with more' 'lower bound 0\n' "${closed[@]}" --proof place
    says 'a place with nobody, or with more, and a price' 'lower bound 15\n' "${closed[@]}" --proof priced_place
    says 'an even number of charges, or an odd one' 'lower bound 15\n' "${closed[@]}" --proof even
    says 'no charge, or more with a surcharge' 'lower bound 15\n' "${closed[@]}" --proof runs
    says 'an odd number of charges, with a surcharge' 'lower bound 15\n' "${closed[@]}" --proof odd
    says 'an even number of charges, with a surcharge, or an odd one' 'lower bound 5\n' "${closed[@]}" --proof odd_free
    says 'a surcharge above the weight' 'lower bound 0\n' "${closed[@]}" --proof dear
    says 'a fact in both cases of another' 'lower bound 15\n' "${closed[@]}" --proof siblings
    says 'a fact that is given, too' 'lower bound 30\n' "${closed[@]}" --given monday_off --proof monday_None
}

# A shift costs Ann 15 points, and 30 are charged if she does not work on the Monday of a week in which she is wanted.
bounds_two_weeks() {
    local two=(--sce wide.txt --his history.txt --week wanted.txt week.txt)
    certificate mondays 2 'PRICES = 1' 'ROWS = 1' 'Day Nurse 30000 0 0 0 0 0 0' 'ROWS = 0' 'LEAVES = 1' 'LEAF 0 SURCHARGES = 0'
    certificate later 2 'PRICES = 1' 'ROWS = 0' 'ROWS = 1' 'Day Nurse 30000 0 0 0 0 0 0' 'LEAVES = 1' 'LEAF 0 SURCHARGES = 0'
    certificate sunday_too 2 'PRICES = 1' 'ROWS = 1' 'Day Nurse 30000 0 0 0 0 0 0' 'ROWS = 1' 'Day Nurse 0 0 0 0 0 0 15000' 'LEAVES = 1' \
        'LEAF 0 SURCHARGES = 0'
    facts off 'HOLDS CHOICE 1 Ann Mon None'
    facts not_off 'NOT CHOICE 1 Ann Mon None' 'NOT PLACE 2 Sun Day Nurse 0'
    facts both 'HOLDS CHOICE 1 Ann Mon None' 'NOT CHOICE 1 Ann Mon None'
    facts none.facts
    says 'two weeks' 'lower bound 15\npenalty 15\noptimal\n' "${two[@]}" --proof mondays --roster monday nobody
    says 'the week twice' 'lower bound 15\npenalty 45\n' --sce wide.txt --his history.txt --week wanted.txt --week wanted.txt --proof mondays \
        --roster monday --roster nobody
    says 'prices of the other week' 'lower bound 0\npenalty 30\n' "${two[@]}" --proof later --roster nobody nobody
    says 'a run over the end of a week' 'lower bound 0\npenalty 15\n' --sce one_day.txt --his history.txt --week week.txt week.txt \
        --roster sunday monday
    says 'a held cell of the second week' 'lower bound 15\npenalty 45\n' "${two[@]}" --fix 2=monday --roster nobody monday
    says 'held cells of both weeks' 'lower bound 30\npenalty 30\noptimal\n' "${two[@]}" --fix 1=monday --fix 2=monday --roster monday monday
    says 'no facts' 'lower bound 15\n' "${two[@]}" --proof mondays --given none.facts
    says 'an absence' 'lower bound 30\npenalty 30\noptimal\n' "${two[@]}" --proof mondays --given off --roster nobody nobody
    says 'two shifts' 'lower bound 30\npenalty 30\noptimal\n' "${two[@]}" --proof sunday_too --given not_off --roster monday sunday
    says 'facts that exclude each other' 'no roster exists\n' "${two[@]}" --given both --minimums
    refuses 'a fact that rosters do not meet' 6 'facts line 5: not met' "${two[@]}" --given off --roster monday nobody
    refuses 'the second fact' 6 'facts line 6: not met' "${two[@]}" --given not_off --roster monday nobody
    refuses 'a hard rule in the second week' 6 'week 2: roster breaks H3' --sce no_two.txt --his history.txt --week week.txt week.txt \
        --roster sunday monday
    refuses 'a held cell that the second roster lacks' 6 'week 2: roster breaks H5' "${two[@]}" --fix 2=monday --roster nobody nobody
    refuses 'the rules before the facts' 6 'week 2: roster breaks H5' "${two[@]}" --fix 2=monday --given off --roster monday nobody
}

# More leaves than a byte counts, and the most leaves, bytes, nurses, facts, lists of prices and surcharges that files may have. In the case of
# 1000 nurses the last one is off, and the price of a nurse on Monday is the cost of her shift; otherwise she works there, and costs 15.
bounds_at_the_limits() {
    local closed=(--sce closed.txt --his history.txt --week wanted.txt) list=('PRICES = 1' 'ROWS = 1' 'Day Nurse 30000 0 0 0 0 0 0') nodes
    mapfile -t nodes < <(seq -f 'SPLIT CHARGES WEEKENDS ALL %.0f LEAF 0 SURCHARGES = 0' 9998)
    certificate thousand_leaves 1 "${list[@]}" 'LEAVES = 1000' "${nodes[@]:0:999}" 'LEAF 0 SURCHARGES = 0'
    certificate most_leaves 1 "${list[@]}" 'LEAVES = 9999' "${nodes[@]}" 'LEAF 0 SURCHARGES = 0'
    certificate no_last_leaf 1 "${list[@]}" 'LEAVES = 9999' "${nodes[@]}"
    filled one longest_certificate 4194304
    filled one longer_certificate 4194305
    says '1000 leaves' 'lower bound 15\n' "${closed[@]}" --proof thousand_leaves
    says 'the most leaves' 'lower bound 15\n' "${closed[@]}" --proof most_leaves
    refuses 'the most leaves, without the last' 1 'certificate line 10006: end of file' "${closed[@]}" --proof no_last_leaf
    says 'the longest certificate' 'lower bound 15\n' "${closed[@]}" --proof longest_certificate
    refuses 'a certificate that is too long' 1 'certificate: out of limits' "${closed[@]}" --proof longer_certificate
    { head -n 10 "$room/closed.txt"; echo 'NURSES = 1000'; seq -f 'N%.0f Full 1 Nurse' 1000; } > "$room/thousand.txt"
    { head -n 3 "$room/history.txt"; seq -f 'N%.0f 0 0 None 0 0 0' 1000; } > "$room/thousand_history.txt"
    certificate last_off 1 'PRICES = 2' 'ROWS = 1' 'Day Nurse 15000 0 0 0 0 0 0' 'ROWS = 0' 'LEAVES = 2' 'SPLIT CHOICE 1 N1000 Mon None' \
        'LEAF 0 SURCHARGES = 0' 'LEAF 1 SURCHARGES = 0'
    says 'a day off of the last of 1000 nurses' 'lower bound 15\npenalty 30\n' \
        --sce thousand.txt --his thousand_history.txt --week wanted.txt --proof last_off --roster nobody
    mapfile -t nodes < <(yes 'NOT PLACE 1 Mon Day Nurse 0' | head -n 9999)
    facts most_facts "${nodes[@]}"
    mapfile -t nodes < <(yes 'ROWS = 0' | head -n 9998)
    certificate most_prices 1 'PRICES = 9999' "${nodes[@]}" "${list[@]:1}" 'LEAVES = 1' 'LEAF 9998 SURCHARGES = 9999' "$(yes 0 | head -n 9999)"
    says 'the most facts, prices and surcharges' 'lower bound 15\npenalty 15\noptimal\n' "${closed[@]}" --given most_facts --proof most_prices \
        --roster monday
}

# says_within SECONDS WHAT LINES WORD..: as `says`, and in this time; it is much more than an idle machine needs.
says_within() {
    local seconds=$1
    says "${@:2}"
}

# The bound of eight weeks of 120 nurses is the one that the Python programs compute. A nurse is needed on each Monday of a year, and the sixth shift of
# each of five nurses costs 20: 25 of 52 shifts are free, and 5 if one nurse works them all. A tree of 100 cases of 30 nurses has the bound of
# its one list of prices, which is the penalty of the best roster.
bounds_in_time() {
    local folder=$examples/last120 held names node nodes
    sed 's/^WEEKS = .*/WEEKS = 8/' "$folder/ward.txt" > "$room/eight_weeks.txt"
    sed '2s/^3/0/' "$folder/history-3.txt" > "$room/eight_weeks_history.txt"
    says_within 60 'eight weeks of 120 nurses' 'lower bound 52415\n' --sce eight_weeks.txt --his eight_weeks_history.txt \
        --week "$folder"/week-3.txt{,,,,,,,}
    { sed 's/^WEEKS = .*/WEEKS = 52/; 6s/.*/Day (0,9)/' "$room/scenario.txt" | head -n 9; echo 'Full (0,5) (0,9) (0,9999) 52 0'; echo 'NURSES = 5'
        seq -f 'N%.0f Full 1 Nurse' 5; } > "$room/year.txt"
    { head -n 3 "$room/history.txt"; seq -f 'N%.0f 0 0 None 0 0 0' 5; } > "$room/year_history.txt"
    changed week.txt needed.txt 3 'REQUIREMENTS\nDay Nurse (1,1) (0,0) (0,0) (0,0) (0,0) (0,0) (0,0)'
    mapfile -t nodes < <(yes 'ROWS = 1 Day Nurse 20000 0 0 0 0 0 0' | head -n 52)
    certificate year_prices 52 'PRICES = 1' "${nodes[@]}" 'LEAVES = 1' 'LEAF 0 SURCHARGES = 0'
    mapfile -t nodes < <(yes needed.txt | head -n 52)
    mapfile -t names < <(yes first_works | head -n 52)
    solution first_works 'N1 Mon Day Nurse'
    says_within 60 'a year of five nurses' 'lower bound 540\npenalty 940\n' --sce year.txt --his year_history.txt --week "${nodes[@]}" \
        --proof year_prices --roster "${names[@]}"
    says_within 60 'a year without prices' 'lower bound 0\n' --sce year.txt --his year_history.txt --week "${nodes[@]}"
    solution second_works 'N2 Mon Day Nurse'
    facts last_off 'HOLDS CHOICE 52 N1 Mon None'
    facts last_on 'NOT CHOICE 52 N1 Mon None'
    says 'a year whose last Monday is held and free' 'no roster exists\n' --sce year.txt --his year_history.txt --week "${nodes[@]}" \
        --fix 52=first_works --given last_off --minimums
    says 'a year whose last Monday is held' 'lower bound 540\npenalty 940\n' --sce year.txt --his year_history.txt --week "${nodes[@]}" \
        --fix 52=first_works --given last_on --proof year_prices --roster "${names[@]}"
    mapfile -t held < <(seq -f '--fix=%.0f=first_works' 52)
    says 'a year whose Mondays are all held' 'lower bound 940\npenalty 940\noptimal\n' --sce year.txt --his year_history.txt --week "${nodes[@]}" \
        "${held[@]}" --roster "${names[@]}"
    refuses 'a year without its last held cell' 6 'week 52: roster breaks H5' --sce year.txt --his year_history.txt --week "${nodes[@]}" \
        --fix 52=first_works --given last_off --roster "${names[@]:1}" second_works
    refuses 'a year without its last day off' 6 'facts line 5: not met' --sce year.txt --his year_history.txt --week "${nodes[@]}" \
        --given last_off --roster "${names[@]}"
    misused 'a week more than a scenario may have' 'there are more weeks than a scenario may have' "${week[@]}" --week "${nodes[@]}"
    mapfile -t names < <(awk '/^NURSES/ { inside = 1; next } inside && NF { print $1 }' "$examples/thirty/ward.txt")
    nodes=()
    for node in {Mon,Tue,Wed,Thu}; do nodes+=("${names[@]/%/ $node None LEAF 0 SURCHARGES = 0}"); done
    nodes=("${nodes[@]/#/SPLIT CHOICE 1 }")
    { sed '/^LEAVES/,$d' "$examples/thirty/certificate.txt"; printf '%s\n' 'LEAVES = 100' "${nodes[@]:0:99}" 'LEAF 0 SURCHARGES = 0'; } > "$room/hundred"
    says_within 60 'a hundred cases of thirty nurses' 'lower bound 605\n' "${thirty[@]}" --proof hundred
}

# Two nurses are wanted on Monday, and the ward has one.
proves_by_cases() {
    local short=(--sce scenario.txt --his history.txt --week two.txt) lists=('PRICES = 2' 'ROWS = 1' 'Day Nurse 1 0 0 0 0 0 0' 'ROWS = 0')
    changed week.txt two.txt 3 'REQUIREMENTS\nDay Nurse (2,0) (0,0) (0,0) (0,0) (0,0) (0,0) (0,0)'
    certificate paid 1 "${lists[@]}" 'LEAVES = 2' 'SPLIT CHOICE 1 Ann Mon None' 'LEAF 0 SURCHARGES = 0' 'LEAF 0 SURCHARGES = 0'
    certificate rest_unpaid 1 "${lists[@]}" 'LEAVES = 2' 'SPLIT CHOICE 1 Ann Mon None' 'LEAF 0 SURCHARGES = 0' 'LEAF 1 SURCHARGES = 0'
    says 'no roster in both cases' 'no roster exists\n' "${short[@]}" --proof paid --minimums
    says 'no roster with a day off' 'no proof that no roster exists\n' "${short[@]}" --proof rest_unpaid --minimums
}

refuses_files() {
    prices twice 'Day Nurse 1 1 1 1 1 1 1' 'Day Nurse 1 1 1 1 1 1 1'
    prices high 'Day Nurse 1 1 1 1 1 1 1000000000'
    prices unknown 'Day Cook 1 1 1 1 1 1 1'
    certificate other_weeks 2 'PRICES = 1' 'ROWS = 0' 'ROWS = 0' 'LEAVES = 1' 'LEAF 0 SURCHARGES = 0'
    certificate no_leaf 1 'PRICES = 1' 'ROWS = 0' 'LEAVES = 2' 'SPLIT EVEN' 'LEAF 0 SURCHARGES = 0'
    certificate other_fact 1 'PRICES = 1' 'ROWS = 0' 'LEAVES = 2' 'SPLIT ODD' 'LEAF 0 SURCHARGES = 0' 'LEAF 0 SURCHARGES = 0'
    certificate below_itself 1 'PRICES = 1' 'ROWS = 0' 'LEAVES = 4' 'SPLIT CHOICE 1 Ann Mon None' 'SPLIT EVEN' 'SPLIT CHOICE 1 Ann Mon None' \
        'LEAF 0 SURCHARGES = 0' 'LEAF 0 SURCHARGES = 0' 'LEAF 0 SURCHARGES = 0' 'LEAF 0 SURCHARGES = 0'
    certificate below_its_opposite 1 'PRICES = 1' 'ROWS = 0' 'LEAVES = 3' 'SPLIT EVEN' 'LEAF 0 SURCHARGES = 0' 'SPLIT EVEN' \
        'LEAF 0 SURCHARGES = 0' 'LEAF 0 SURCHARGES = 0'
    certificate split_too_many 1 'PRICES = 1' 'ROWS = 0' 'LEAVES = 2' 'SPLIT EVEN' 'LEAF 0 SURCHARGES = 0' 'SPLIT CHOICE 1 Ann Mon None' \
        'LEAF 0 SURCHARGES = 0' 'LEAF 0 SURCHARGES = 0'
    certificate leaf_too_early 1 'PRICES = 1' 'ROWS = 0' 'LEAVES = 3' 'SPLIT EVEN' 'LEAF 0 SURCHARGES = 0' 'LEAF 0 SURCHARGES = 0'
    { cat "$room/none"; echo more; } > "$room/more"
    { cat "$room/none"; head -c 4194304 /dev/zero | tr '\0' ' '; } > "$room/long"
    refuses 'a row twice' 1 'certificate line 8: repeated' "${week[@]}" --proof twice
    refuses 'a price beyond the limit' 1 'certificate line 7: out of limits' "${week[@]}" --proof high
    refuses 'an unknown skill' 1 'certificate line 7: unknown name' "${week[@]}" --proof unknown
    refuses 'a certificate for two weeks' 1 'certificate line 4: out of limits' "${week[@]}" --proof other_weeks
    refuses 'a split without its second half' 1 'certificate line 9: end of file' "${week[@]}" --proof no_leaf
    refuses 'a leaf too many' 1 'certificate line 10: another word expected' "${week[@]}" --proof split_too_many
    refuses 'a leaf too few' 1 'certificate line 10: another word expected' "${week[@]}" --proof leaf_too_early
    refuses 'an unknown fact' 1 'certificate line 8: another word expected' "${week[@]}" --proof other_fact
    refuses 'a fact in a case where it holds' 1 'certificate: repeated' "${week[@]}" --proof below_itself
    refuses 'a fact in a case where it does not hold' 1 'certificate: repeated' "${week[@]}" --proof below_its_opposite
    refuses 'text after the end' 1 'certificate line 9: text after the end' "${week[@]}" --proof more
    refuses 'a file that is too long' 1 'certificate: out of limits' "${week[@]}" --proof long
    refuses 'an empty file' 1 'certificate line 1: end of file' "${week[@]}" --proof nothing
    refuses 'no such certificate' 3 'read failed' "${week[@]}" --proof missing
    facts nobody_off 'HOLDS CHOICE 1 Bob Mon None'
    facts no_day 'HOLDS CHOICE 1 Ann Day None'
    facts no_week 'HOLDS CHOICE 2 Ann Mon None'
    facts neither 'CHOICE 1 Ann Mon None'
    refuses 'an unknown nurse off' 1 'facts line 5: unknown name' "${week[@]}" --given nobody_off
    refuses 'an unknown day off' 1 'facts line 5: unknown name' "${week[@]}" --given no_day
    refuses 'a day off of a week that is not there' 1 'facts line 5: out of limits' "${week[@]}" --given no_week
    refuses 'a fact that neither holds nor not' 1 'facts line 5: another word expected' "${week[@]}" --given neither
    refuses 'a certificate as facts' 1 'facts line 1: another word expected' "${week[@]}" --given none
    refuses 'no such facts' 3 'read failed' "${week[@]}" --given missing
    refuses 'no such roster' 3 'read failed' "${week[@]}" --roster missing
    refuses 'no such second week' 3 'read failed' "${week[@]}" --week missing
    refuses 'a folder as a certificate' 3 'read failed' "${week[@]}" --proof .
    refuses 'two shift types on a day' 6 'roster breaks H1' --sce two_shifts.txt --his history.txt --week week.txt --roster both_shifts
    refuses 'a roster without a held cell' 6 'roster breaks H5' "${week[@]}" --fix wednesday --roster nobody
    refuses 'more weeks than the scenario has' 1 'week 3: history: week not below WEEKS' "${week[@]}" --week week.txt week.txt
    refuses 'a week after the last one' 1 'history: week not below WEEKS' --sce scenario.txt --his late.txt --week week.txt
    out=/dev/full refuses 'a full standard output' 3 'write failed' "${week[@]}"
}

# Each file has a fault from some place on; the first one in the order of the checks is reported.
checks_in_order() {
    local files=(--sce twice --his twice --week twice twice --fix '1=twice' --fix '2=twice' --given twice --proof twice --roster twice twice)
    refuses 'the scenario first' 1 'scenario line 1: another word expected' "${files[@]}"
    files[1]=scenario.txt
    refuses 'then the history' 1 'history line 1: another word expected' "${files[@]}"
    files[3]=history.txt
    refuses 'then the first week' 1 'week 1: week line 1: another word expected' "${files[@]}"
    files[5]=week.txt
    refuses 'then its held cells' 1 'week 1: fix line 1: another word expected' "${files[@]}"
    files[8]='1=nobody'
    refuses 'then the second week' 1 'week 2: week line 1: another word expected' "${files[@]}"
    files[6]=week.txt
    refuses 'then its held cells, too' 1 'week 2: fix line 1: another word expected' "${files[@]}"
    files[10]='2=nobody'
    refuses 'then the facts' 1 'facts line 1: another word expected' "${files[@]}"
    files[12]=none.facts
    refuses 'then the certificate' 1 'certificate line 4: out of limits' "${files[@]}"
    certificate even_twice 2 'PRICES = 1' 'ROWS = 0' 'ROWS = 0' 'LEAVES = 3' 'SPLIT EVEN' 'SPLIT EVEN' 'LEAF 0 SURCHARGES = 0' \
        'LEAF 0 SURCHARGES = 0' 'LEAF 0 SURCHARGES = 0'
    files[14]=even_twice
    refuses 'then its paths' 1 'certificate: repeated' "${files[@]}"
    files[14]=other_weeks
    refuses 'then the first roster' 1 'week 1: solution line 1: another word expected' "${files[@]}"
    files[16]=nobody
    refuses 'then the second roster' 1 'week 2: solution line 1: another word expected' "${files[@]}"
}

# manual SECTION: a section of the manual page in one line, with the lines of a command joined.
manual() { sed -n "/^\.Sh $1\$/,/^\.Sh/p" man/inrc2pb-bound.1 | sed 's/ *\\e$//' | tr -s ' \n' ' '; }

# The help begins and ends as the manual page does: the purpose of the program, its examples, and its exit statuses.
shows_help() {
    local example statuses
    run 'help' 0 text nothing --help
    head -n 1 "$room/out" | grep -qxF "Proves $(sed -n 's/^\.Nd //p' man/inrc2pb-bound.1)" || complain 'another sentence'
    grep -q '^Usage: inrc2pb-bound ' "$room/out" || complain 'another usage'
    [ "$(grep ':$' "$room/out")" = $'Options:\nExamples:' ] || complain 'other headings'
    [ "$(grep -c '^  inrc2pb-bound ' "$room/out")" = 2 ] || complain 'not two examples'
    while read -r example; do
        manual EXAMPLES | grep -qF -- "$example " || complain "not in the manual page: $example"
    done < <(grep '^  inrc2pb-bound ' "$room/out")
    statuses=$(tr '\n' ' ' < "$room/out" | sed -n 's/.* Exit status: \(0 .* 6 if a roster breaks a hard rule\) or a given fact\. .*/\1/p')
    [ "$statuses" != '' ] || complain 'no statuses'
    manual 'EXIT STATUS' | grep -qF -- " $statuses or the rosters do not meet a given fact" || complain "other statuses: $statuses"
    tail -n 1 "$room/out" | grep -q ' The files: inrc2pb-bound(1)\.$' || complain 'not said where the files are'
}

checks_words() {
    line version "inrc2pb-bound $(sed -n 's/^## //p' CHANGELOG.md | head -n 1)"
    run 'the version' 0 version nothing --version
    run 'no words' 2 nothing text
    misused 'no week' "$lacking" --sce scenario.txt --his history.txt
    misused 'an unknown option' "unexpected argument '--sol' found" "${week[@]}" --sol x
    misused 'a command' "unexpected argument 'encode' found" encode "${week[@]}"
    misused 'the certificate twice' "the argument '--proof <FILE>' cannot be used multiple times" "${week[@]}" --proof none --proof none
    misused 'the minimums and a roster' '--minimums excludes --roster' "${week[@]}" --minimums --roster nobody
    misused 'a roster too few' 'each --week needs one --roster' "${week[@]}" --week week.txt --roster nobody
    misused 'a roster too many' 'each --week needs one --roster' "${week[@]}" --roster nobody nobody
    misused 'held cells of a week that is not there' 'each --fix N=FILE needs a --week of its own' "${week[@]}" --fix 2=monday
    misused 'held cells of a week twice' 'each --fix N=FILE needs a --week of its own' "${week[@]}" --fix 1=monday --fix 1=wednesday
    misused 'held cells of no week' 'each --fix N=FILE needs a --week of its own' "${week[@]}" --week week.txt --fix monday
    out=/dev/full
    line fault 'inrc2pb-bound: write failed'
    run 'help on a full device' 3 nothing fault --help
    out=$room/out
}

solution both_shifts 'Ann Mon Early Nurse' 'Ann Mon Late Nurse'
solution two_days "${all_days[@]:0:2}"
solution sunday "${all_days[6]}"
changed scenario.txt no_two.txt 8 'Day 1 Day'
# Without limits of a contract.
changed closed.txt wide.txt 10 'Full (0,99) (0,99) (0,99) 99 0'
changed wide.txt one_day.txt 6 'Day (1,1)'
proves_optima
bounds_a_month
bounds_the_base
bounds_by_cases
bounds_two_weeks
bounds_at_the_limits
bounds_in_time
proves_by_cases
refuses_files
checks_in_order
shows_help
checks_words
finish
