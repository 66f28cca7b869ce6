# What the cases of docs/SCALE.md share. A case sources it in its folder, which then has a population of 25 jobs, its
# report `right`, and ranges.sh for ranges of 10 jobs. In bin/ is a zsched-population, which is slow while there is a
# file `slow`, ends with status 4 at jobs 10..20 while there is `fails`, and stops in --check while there is `slow-join`.

# recipe TITLE [LANGUAGE [NUMBER]]: a block of commands in a section of the page.
recipe() {
  awk -v title="## $1" -v mark="\`\`\`${2:-sh}" -v number="${3:-1}" '
    /^## / { is_in = $0 == title } /^```$/ { is_shown = 0 } is_in && is_shown
    $0 == mark && is_in { is_shown = ++count == number }' "$TOP/docs/SCALE.md"
}

# said COMMANDS: runs them, and prints their status and the errors of the program.
said() {
  bash -c "$1" > /dev/null 2> errors
  echo "status $?$(sed -n 's/^zsched/: &/p' errors)"
}

# killed COMMANDS REACHED: runs COMMANDS until the test REACHED holds. Then it kills all their processes, which are
# stopped before, so that none sees another's end.
killed() {
  setsid bash -c "$1" > /dev/null 2>&1 &
  local session=$!
  until eval "$2"; do kill -0 $session 2> /dev/null || { echo "ended before: $2"; break; }; sleep 0.02; done
  for signal in STOP STOP KILL; do pkill -$signal -s $session; done
  wait $session && echo "it ended with status 0"
  rm -f slow slow-join
} 2> /dev/null

# whole: says if the joined report is that of the population.
whole() { cmp right whole.report && echo "the report is whole"; }

# size N: ranges of N jobs, none of which has run.
size() {
  rm -rf ranges whole.report
  recipe Ranges | sed "s/^size=.*/size=$1/" > ranges.sh
}

numbers() { echo $(cd ranges && ls -v *.report | sed 's/[.]report//'); }

# judge COMMANDS [TIMES]: a recipe with a range that fails, then again, and once more when nothing is to be done; then one
# that is killed while ranges run, and again while they are joined.
judge() {
  touch fails
  bash -c "$1" > /dev/null 2>&1
  echo "a range fails: status $?; reports: $(numbers)"
  said "sh ranges.sh join"
  local kept=$(stat -c %y ranges/0.report)
  rm fails
  # A report that `join` rejects is made again after it was removed.
  rm ranges/2.report
  for time in $(seq "${2-2}"); do
    bash -c "$1" > /dev/null 2>&1
    echo "again: status $?; $(whole)"
  done
  [ "$kept" = "$(stat -c %y ranges/0.report)" ] || echo "the first range was run again"
  size 1
  touch slow
  killed "$1" 'ls ranges/*.report > /dev/null 2>&1'
  [ "$(numbers | wc -w)" -lt 25 ] && echo "killed while ranges run"
  touch slow-join
  killed "$1" '[ -e joining ]'
  [ -e whole.report ] || echo "killed while $(numbers | wc -w) reports are joined"
  bash -c "$1" > /dev/null 2>&1
  echo "again: status $?; $(whole)"
}

mkdir -p bin .parallel
touch .parallel/will-cite
export HOME=$PWD LC_ALL=C PATH="$PWD/bin:/usr/local/bin:/usr/bin:/bin:/usr/sbin:/sbin"
program=$(realpath "$ZSCHED_POPULATION")
cat > bin/zsched-population << END
#!/bin/sh
[ ! -e $PWD/slow ] || sleep 0.2
[ ! -e $PWD/fails ] || [ "\$2" != 10..20 ] || { echo "zsched-population: out of memory" >&2; exit 4; }
[ ! -e $PWD/slow-join ] || [ "\$1" != --check ] || { head -c 100 right; touch $PWD/joining; sleep 60; }
exec $program "\$@"
END
chmod +x bin/zsched-population
job='{"name":"job-%g","mode":"retry","schedule":"recurs(3)","script":[{"ms":5,"err":7},{"ms":5,"ok":1}]}'
(echo '{"horizon":1000}'; seq -f "$job" 0 24) > population.jsonl
zsched-population < population.jsonl > right
size 10
