# shellcheck shell=bash
# The solvers of a model, and their commands. To be sourced.

# Debian's package `sat4j` has the solver for pseudo-Boolean models in this file.
sat4j_jar=/usr/share/java/org.sat4j.pb.jar

# installed_solvers: the solvers that are here, one a line.
installed_solvers() {
    local name
    for name in clasp minisat+; do
        command -v "$name" || continue
    done | sed 's|.*/||'
    if [ -e $sat4j_jar ] && command -v java > /dev/null; then echo sat4j; fi
}

# solver_command SOLVER MODEL: the command that solves the model in this file.
solver_command() {
    case $1 in
        clasp) echo "clasp --configuration=crafty --opt-strategy=usc,k,0,7 $2" ;;
        minisat+) echo "minisat+ $2" ;;
        sat4j) echo "java -jar $sat4j_jar $2" ;;
        *) return 1 ;;
    esac
}

tell_how_to_get_one() {
    echo "No solver found. On Debian and Ubuntu one of these gets one:"
    echo "    apt-get install clasp"
    echo "    apt-get install minisat+"
    echo "    apt-get install sat4j"
}
