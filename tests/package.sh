#!/usr/bin/env bash
# Builds the Debian package twice, which has to give the same bytes; unpacks it, runs the programs that are in it,
# renders its manual pages if `man` is there, and completes arguments by bash, and by fish if that is there. The options
# of each program are the same set in --help, in its manual page and for each shell.
#
# usage: tests/package.sh [PROGRAM [RENEWING]]
#
# PROGRAM is crates/bagit/out/bagit by default, and RENEWING crates/bagit_renew/out/bagit_renew. It needs dpkg-deb, strip
# and Python.
set -euo pipefail
source "$(dirname "$0")/common.sh"
take_program bagit_renew "${2:-}"
renewing=$program
take_program bagit "${1:-}"
for tool in dpkg-deb strip python3; do needs "$tool"; done
enter package
quick_python

build() { "$root/packaging/build" --program "$program" --renewing "$renewing" "$1"; }
package=$(build first)
build second >printed
cmp "$package" "second/${package##*/}" || give_up 'built twice, the package differs'
[[ ${package##*/} == "bagit_$(<"$root/VERSION")_amd64.deb" ]] || give_up "it is called ${package##*/}"
dpkg-deb --extract "$package" tree
dpkg-deb --info "$package" control | grep -qx "Version: $(<"$root/VERSION")" || give_up 'it has another version'
dpkg-deb --control "$package" control
(cd tree && md5sum --check --quiet ../control/md5sums)

# The programs: bagit, bagit-renew and bagit-keep.
export PATH=$work/tree/usr/bin:$PATH
programs=$(ls tree/usr/bin)
diff <(printf '%s\n' bagit bagit-keep bagit-renew) <(sort <<<"$programs") ||
    give_up 'it has other programs'
! grep -rl @VERSION@ tree || give_up 'a version is missing'

# The program, the one that renews what it has made, and a large bag.
[[ $(bagit) == 'sample has a good declaration' ]] || give_up 'the program does not check its sample'
mkdir deposit
echo a >deposit/a
bagit deposit >printed
[[ $(bagit-renew --add md5 deposit) == 'deposit renewed' && -s deposit/manifest-md5.txt ]] || give_up 'bagit-renew does not renew'
bagit-keep check --wait 0 deposit report >printed
diff report - <<<'deposit is valid'
bagit-keep check --wait 0 --jobs 2 --parts 3 deposit in_parts >printed
diff in_parts report

# bagit-keep, and its package.
diff <(cd "$root/companions/bagitkeep" && ls *.py templates) <(cd tree/usr/lib/python3/dist-packages/bagitkeep && ls *.py templates) ||
    give_up 'it has another package'
[[ $(bagit-keep --version) == "bagit-keep $(<"$root/VERSION")" ]] || give_up 'bagit-keep has another version'
bagit-keep round round deposit >printed
[[ $(bagit-keep report --round round) == "{\"bag\": \"$work/deposit\", \"ended\": \"is valid\"}" ]] || give_up 'bagit-keep makes no round'
for command in $(bagit-keep --help | sed -nE 's/^  ([a-z]+) .*/\1/p'); do programs+=" bagit-keep-$command"; done

# If the program is killed in the middle, no report is closed; started again, it goes on. A report that can't be written doesn't end as
# one with faults.
echo b >deposit/data/b
echo x >>deposit/data/a
printf '#!/bin/sh\nbagit "$@" | head -c 250; exit 137\n' >killed
chmod +x killed
status=0
BAGIT=$work/killed bagit-keep check --wait 0 --tries 1 deposit faults 2>printed || status=$?
[[ $status == 3 && ! -e faults && -e faults.parts ]] || give_up "bagit-keep check ends with $status if the program is killed"
status=0
bagit-keep check --wait 0 --tries 1 deposit faults 2>printed || status=$?
[[ $status == 2 && $(<printed) == *'of a check of another bagit'* ]] || give_up "bagit-keep check ends with $status for another bagit"
rm -r faults.parts
status=0
bagit-keep check deposit faults >printed 2>errors || status=$?
[[ $status == 1 ]] && ! bagit --validate deposit >printed
diff faults printed || give_up 'bagit-keep check writes another report'
status=0
bagit-keep check deposit nowhere/faults 2>printed || status=$?
[[ $status == 3 ]] || give_up "bagit-keep check ends with $status where the report can't be written"

# The manual pages have no warnings, and show no line of markup.
share=$work/tree/usr/share
manual() { gzip -dc "$share/man/$1".?.gz | sed 's/\\-/-/g'; }
pages=0
for page in man7/bagit-faults $(printf 'man1/%s\n' $programs); do
    gzip -dc "$share/man/$page".?.gz >page
    grep -q "bagit $(<"$root/VERSION")" page || give_up "$page has another version"
    if type -P man >/dev/null; then
        LC_ALL=C.UTF-8 MANWIDTH=100 man --warnings -l page >rendered 2>warnings
        [[ ! -s warnings && $(wc -l <rendered) -gt 30 ]] || { cat warnings; give_up "$page is not rendered"; }
        ! grep -nE '^ *\.[A-Z]{1,2}( |$)|\\f|`|\*\*' rendered || give_up "$page shows markup"
        pages=$((pages + 1))
    fi
done
sed -n 's/^| *\([1-8][0-9][0-9]\) *| *`\([a-z0-9-]*\)`.*/\1 \2/p' "$root/docs/FAULTS.md" | sort >written
manual man7/bagit-faults | sed -n 's/^\.B \([1-8][0-9][0-9] [a-z0-9-]*\)$/\1/p' | sort | diff written - ||
    give_up 'bagit-faults(7) has other codes than docs/FAULTS.md'
[[ $(wc -l <written) -gt 40 ]] || give_up 'docs/FAULTS.md has no codes'

# The options of each program.
bash=$share/bash-completion/completions zsh=$share/zsh/vendor-completions fish=$share/fish/vendor_completions.d
# The blocks of a file, each from a line that doesn't begin with a blank or `}` to the next, whose first line has this.
blocks() { awk -v form="$1" '/^[^ }]/ { inside = $0 ~ form } inside' "$2"; }
all_options=0
for page in $programs; do
    name=$page part=. of_fish=. words=("$page")
    # The completions of a command are a part of those of bagit-keep.
    if [[ $page == bagit-keep-* ]]; then
        name=bagit-keep words=(bagit-keep "${page##*-}") part=_${page##*-} of_fish="from ${page##*-}'"
    elif [[ $page == bagit-keep ]]; then
        part='keep[(][)]|CURRENT' of_fish=use_subcommand
    fi
    "${words[@]}" --help | sed -nE 's/^ {2,}(-[a-z], )?(--[a-z0-9.-]+) ?.*/\1\2/p' | sed 's/, /\n/' | sort >in_help
    (($(wc -l <in_help) > 1)) || give_up "${words[*]} --help has no options"
    manual "man1/$page" | sed -n '/^\.SH OPTIONS/,/^\.SH/p' | grep -oE -- '(^|[^a-z0-9-])(--[a-z]([.]?[a-z0-9-])*|-h)\b' |
        grep -oE -- '--?[a-z0-9.-]+' | sort -u | diff in_help - || give_up "$page(1) has other options than --help"
    blocks "$part" "$bash/$name" | sed -n "s/.*compgen -W '\(.*\)' -- .*/\1/p" | tr ' ' '\n' | grep ^- | sort | diff in_help - ||
        give_up "bash completes other options of $page"
    blocks "$part" "$zsh/_$name" | sed -n "s/^ *'[*]\{0,1\}\(-[a-z0-9.-]*\)=\{0,1\}\[.*/\1/p" | sort | diff in_help - ||
        give_up "zsh completes other options of $page"
    grep -e "$of_fish" "$fish/$name.fish" | sed -nE 'h; s/.* -l ([a-z0-9.-]+).*/--\1/p; g; s/.* -s ([a-z]) .*/-\1/p' | sort |
        diff in_help - || give_up "fish completes other options of $page"
    all_options=$((all_options + $(wc -l <in_help)))
done

# Texts with an apostrophe, a backslash and what else a shell may read.
cat >odd <<'END'
usage: odd COMMAND FILE

  go  doesn't \ stop: [$x] `y`

Options:
  -e, --ex FILE  don't: [take] \ $x or `y`, as often as wanted
END
for shell in bash zsh fish; do "$root/packaging/completions" $shell odd go=odd <odd >odd.$shell; done
quotes() { grep -qF -- "$2" "odd.$1" || { cat "odd.$1"; give_up "completions for $1 have no line $2"; }; }
bash -n odd.bash
quotes zsh "'go:doesn'\''t \ stop: [\$x] \`y\`'"
quotes zsh "'*--ex=[don'\''t\: \[take\] \\\\ \$x or \`y\`, as often as wanted]:FILE:_files'"
quotes fish "-a go -d 'doesn\\'t \\\\ stop: [\$x] \`y\`'"
quotes fish "-s e -l ex -rF -d 'don\\'t: [take] \\\\ \$x or \`y\`, as often as wanted'"
! type -P zsh >/dev/null || zsh -n odd.zsh
! type -P fish >/dev/null || fish --no-execute odd.fish

# What bash completes. After `--` there are no options; an equals sign is an argument of its own.
mkdir -p here/photographs here/plans
touch here/profile.json
completes() {
    local wanted=$1
    shift
    source "$bash/$1"
    COMP_WORDS=("$@") COMP_CWORD=$(($# - 1))
    (cd here && "_${1//-/_}" && printf '%s\n' "${COMPREPLY[@]}") | sort | paste -sd ' ' | diff - <(echo "$wanted") ||
        give_up "bash completes '$*' otherwise"
}
completes '--fast' bagit --validate --fa
completes '--completeness-only --contact-email --contact-name --contact-phone' bagit --co
completes 'photographs plans' bagit --validate p
completes 'photographs plans profile.json' bagit --validate --profile p
completes 'photographs plans profile.json' bagit --validate --profile = p
completes 'photographs plans profile.json' bagit --validate --profile =
completes 'profile.json' bagit --profile = pr --validate --profile = pr
completes '' bagit --contact-name p
completes '' bagit --contact-name = p
completes 'photographs plans' bagit -- p
completes '' bagit -- --v
completes 'photographs plans' bagit -- --validate p
completes '--to-1.0' bagit-renew --t
completes 'photographs plans' bagit-renew --to-1.0 p
completes '' bagit-renew --set p
completes 'photographs plans profile.json' bagit-keep report p
completes '--files' bagit-keep report --fi
completes '' bagit-keep report --files 6
completes '' bagit-keep report -- --fi
completes 'receive renew repack report restore retire round' bagit-keep r
completes 'photographs plans' bagit-keep info p
completes 'photographs plans' bagit-keep make --labels photographs p
completes 'photographs plans profile.json' bagit-keep make --labels p
completes '' bagit-keep make --label p
completes 'photographs plans profile.json' bagit-keep restore photographs --from = p
completes 'photographs plans' bagit-keep repack photographs add p
completes 'photographs plans profile.json' bagit-keep edit photographs p
completes '--version' bagit-keep --v
completes 'page premis' bagit-keep p
completes '' bagit-keep other p
completes 'photographs plans profile.json' bagit-keep check --profile = p
completes 'photographs plans profile.json' bagit-keep check photographs p
completes '' bagit-keep check -- --p
completes 'photographs plans' bagit-keep round round p
completes 'photographs plans profile.json' bagit-keep round round --list = p
completes 'photographs plans' bagit-keep round --since p
completes '' bagit-keep round --jobs p
completes 'photographs plans profile.json' bagit-keep receive p
completes 'photographs plans profile.json' bagit-keep send p
completes 'photographs plans' bagit-keep fetch p

# What fish completes: the arguments in the first column.
if type -P fish >/dev/null; then
    fish_completes() {
        (cd here && HOME=$work fish --no-config -c "source $fish/${2%% *}.fish; complete -C '$2'") | cut -f1 | sort |
            paste -sd ' ' | diff - <(echo "$1") || give_up "fish completes '$2' otherwise"
    }
    fish_completes '--fast' 'bagit --validate --fa'
    fish_completes 'photographs/ plans/' 'bagit --validate p'
    fish_completes '--profile=photographs/ --profile=plans/ --profile=profile.json' 'bagit --profile=p'
    fish_completes '' 'bagit -- --v'
    fish_completes 'photographs/ plans/' 'bagit -- p'
    fish_completes 'photographs/ plans/ profile.json' 'bagit-keep report p'
fi

echo "the package is built twice the same, and has $(wc -w <<<"$programs") programs and commands, $all_options options" \
    "and $(wc -l <written) codes in all its pages; $pages pages were rendered"
