# shellcheck shell=bash disable=SC2154  # The kit makes the room.
# Commands that replace others while a script runs, in the folder $room/bin. A script sources it after the kit.
mkdir -p "$room/bin" "$room/answers"

# stand_in NAME: the command of this name, from standard input.
stand_in() {
    cat > "$room/bin/$1"
    chmod +x "$room/bin/$1"
}

# If clasp is not installed, its stored answers: the model's first line selects one.
stand_in_for_clasp() {
    command -v clasp > /dev/null && return
    cp examples/*/answers/clasp*.txt "$room/answers"
    stand_in clasp << END_OF_CLASP
#!/usr/bin/env bash
line=\$([ \$# -gt 0 ] && head -n 1 "\${!#}" 2> /dev/null) || line=\$(head -n 1; cat > /dev/null)
case \$line in
    '* #variable= 549 #constraint= 480') cat "$room/answers/clasp-optimum.txt" ;; # n005w4
    '* #variable= 549 #constraint= 481') cat "$room/answers/clasp-held.txt" ;; # the same with --fix promised.txt
    '* #variable= 1382 #constraint= 853') cat "$room/answers/clasp-lowered.txt" ;; # eight, its minimum numbers as wishes
    '* #variable= 656 #constraint= 570') cat "$room/answers/clasp-ward-0.txt" ;; # ward, week 0
    '* #variable= 656 #constraint= 585') cat "$room/answers/clasp-ward-0.txt" ;; # the same with Monday to Wednesday held
    '* #variable= 666 #constraint= 580') cat "$room/answers/clasp-ward-1-early.txt" ;; # ward, week 1, with --early
    '* #variable= 656 #constraint= 571') cat "$room/answers/clasp-ward-held.txt" ;; # ward, week 0, with a promised shift
    '* #variable= 665 #constraint= 579') cat "$room/answers/clasp-ward-1.txt" ;; # ward, week 1
    *) echo 's UNSATISFIABLE' ;;
esac
END_OF_CLASP
}

# If no solver of linear programs is installed, `inrc2pb-solve` takes clasp. It comes after `stand_in_for_clasp`.
stand_in_for_cbc() {
    command -v cbc clp > /dev/null && return
    printf '#!/bin/sh\nexec "%s/python/inrc2pb-solve" "$@" --solver clasp\n' "$PWD" | stand_in inrc2pb-solve
}
