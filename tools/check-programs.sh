#!/usr/bin/env bash
# What a stored case cannot show of the built programs: what cannot be read or written, options, and standard error.
#
#     tools/check-programs.sh [FOLDER]
#
# FOLDER is target/bin if not given. Prints what is not as expected, then how many cases passed; the exit status is 1 if one failed.
cd "$(dirname "$0")/.." || exit 2
bin=${1:-target/bin}
scene=samples/truck-nine.rad
scratch=$(mktemp -d) || exit 2
trap 'rm -rf "$scratch"' EXIT
passed=0 failed=0

# A command, and what it has to write to standard output and to standard error.
expect() {
    eval "$1" >"$scratch/out" 2>"$scratch/err"
    if cmp -s "$scratch/out" <(printf '%s' "$2") && cmp -s "$scratch/err" <(printf '%s' "$3"); then
        passed=$((passed + 1))
    else
        failed=$((failed + 1))
        echo "not as expected: $1"
        head -n 5 "$scratch/out" "$scratch/err"
    fi
}

listing=$("$bin/list" <$scene)$'\n'
finishes=$("$bin/finishes" <$scene)$'\n'
shows=$("$bin/shows" <$scene)$'\n'
tidy=$("$bin/tidy" <$scene)$'\n'
sorted=$("$bin/sort" <$scene)$'\n'
printf 'void glass clear 0 0 3 .9 .9 .9 void glass grey 0 0 4 .5 .5 .5 1.52\n' >"$scratch/panes"
panes=$'void glass clear\n0\n0\n4 .9 .9 .9 1.52\nvoid glass grey\n0\n0\n4 .5 .5 .5 1.52\n'
bare=$'void glass clear\n0\n0\n3 .9 .9 .9\nvoid glass grey\n0\n0\n3 .5 .5 .5\n'
head -c 65536 /dev/zero | tr '\0' '#' >"$scratch/fits"
head -c 65537 /dev/zero | tr '\0' '#' >"$scratch/long"
printf '\n# note\nwall' >"$scratch/refused"
printf 'void light bulb 0 0 3 1 1 1\nbulb mixfunc glare 4 glare void v f.cal 0 0\n' >"$scratch/loop"
full='standard output: No space left on device'$'\n'

# One file is answered as standard input is, and several each under a heading.
expect '$bin/list $scene' "$listing" ''
expect '$bin/finishes $scene' "$finishes" ''
expect '$bin/shows $scene' "$shows" ''
expect '$bin/tidy $scene' "$tidy" ''
expect '$bin/sort $scene' "$sorted" ''

# Glass is moved, and a scene without it is tidy.
for direction in forth back; do
    expect '$bin/glass $direction $scene' "$tidy" ''
    expect '$bin/glass $direction <$scene' "$tidy" ''
done
expect '$bin/glass forth $scratch/panes' "$panes" ''
expect '$bin/glass back <$scratch/panes' "$bare" ''
expect '$bin/glass back $scene $scratch/panes' "scene=$scene"$'\n'"${tidy}scene=$scratch/panes"$'\n'"$bare" ''
expect '$bin/glass back $scratch/panes | $bin/glass --archive forth' "$panes" ''
expect '$bin/list $scene $scene' "scene=$scene"$'\n'"${listing}scene=$scene"$'\n'"$listing" ''
expect '$bin/finishes $scene $scene' "scene=$scene"$'\n'"${finishes}scene=$scene"$'\n'"$finishes" ''
expect '$bin/shows $scene $scene' "scene=$scene"$'\n'"${shows}scene=$scene"$'\n'"$shows" ''
expect '$bin/tidy $scene $scene' "scene=$scene"$'\n'"${tidy}scene=$scene"$'\n'"$tidy" ''
expect '$bin/sort $scene $scene' "scene=$scene"$'\n'"${sorted}scene=$scene"$'\n'"$sorted" ''
expect '$bin/glass forth $scene $scene' "scene=$scene"$'\n'"${tidy}scene=$scene"$'\n'"$tidy" ''

# A sorted scene compares as the same, is sorted, and shows the same in other places. What cannot be sorted is said on standard error too.
printf '%s' "$sorted" >"$scratch/sorted"
printf 'void light bulb 0 0 3 1 1 1' >"$scratch/open"
printf 'void light bulb 0 0 3 1 1 1 bulb\nsphere s 0 0 4 0 0 0 1\n' >"$scratch/shared"
expect '$bin/compare $scene $scratch/sorted' '' ''
expect '$bin/sort $scratch/sorted' "$sorted" ''
expect 'sort $scratch/sorted' "$(sort $scene)"$'\n' ''
expect '$bin/sort $scratch/open' $'refused=33 place=27 line=1\n' "scene=$scratch/open refused=33 place=27 line=1"$'\n'
expect '$bin/sort <$scratch/shared' $'refused=34 place=28 line=1\n' $'refused=34 place=28 line=1\n'
expect '$bin/sort <$scratch/fits' $'refused=33 place=65536 line=1\n' $'refused=33 place=65536 line=1\n'

# Two entries by their numbers, in either order; the names that are given twice; and what is no pair of a scene.
expect '$bin/order $scene' $'name=deskfront no=3 line=8 used=4 no=5 line=14 used=6,7\n' ''
expect '$bin/order $scene 3 5' $'first=3 second=5 order=held by=5 name=deskfront\n' ''
expect '$bin/order $scene 6 4' $'first=4 second=6 order=held by=5 name=deskfront\n' ''
expect '$bin/order $scene 3 9' $'first=3 second=9 order=free\n' ''
expect '$bin/order $scene 3 3' $'first=3 second=3 refused=17\n' ''
expect '$bin/order --archive $scene 3 99' $'first=3 second=99 refused=17\n' ''
expect '$bin/order $scratch/refused 1 2' $'refused=7 place=8 line=3\n' ''
expect '$bin/order $scratch/long' $'refused=1 place=0 line=1\n' ''
expect '$bin/order missing 1 2' $'scene=missing unreadable\n' ''
for arguments in '' --archive '$scene 3' '$scene 3 5 7' '$scene three 5' '$scene 3 123456' '$scene -3 5' '-x $scene'; do
    expect '$bin/order '"$arguments" $'usage: order [--archive] FILE [NUMBER NUMBER]\n' ''
done
expect '$bin/order $scene 3 5 >/dev/full' '' "$full"

# A read that fails is no empty scene.
for program in list finishes shows words numerals rays; do
    expect '$bin/$program <$scratch' $'unreadable\n' ''
    expect '$bin/$program <&-' $'unreadable\n' ''
done
for program in tidy sort 'glass forth'; do
    expect '$bin/$program <$scratch' $'unreadable\n' $'unreadable\n'
    expect '$bin/$program <&-' $'unreadable\n' $'unreadable\n'
done
for program in list finishes shows; do
    expect '$bin/$program samples' $'scene=samples unreadable\n' ''
    expect '$bin/$program missing' $'scene=missing unreadable\n' ''
    expect '$bin/$program ""' $'scene= unreadable\n' ''
done
for program in tidy sort 'glass forth'; do
    expect '$bin/$program missing' $'scene=missing unreadable\n' $'scene=missing unreadable\n'
done
expect '$bin/list missing $scene' $'scene=missing unreadable\n'"scene=$scene"$'\n'"$listing" ''
expect '$bin/shows missing $scene' $'scene=missing unreadable\n'"scene=$scene"$'\n'"$shows" ''
expect '$bin/compare $scene samples' $'scene=right unreadable\n' ''

# 65,536 bytes fit, and one more does not.
expect '$bin/list <$scratch/fits' $'primitives=0 reals=0\n' ''
expect '$bin/words <$scratch/fits' "place=0 word=$(cat "$scratch/fits")"$'\n' ''
for program in list words numerals; do
    expect '$bin/$program <$scratch/long' $'refused=1 place=0\n' ''
done
expect '$bin/list $scratch/long' $'refused=1 place=0\n' ''
expect '$bin/finishes <$scratch/long' $'refused=1 place=0 line=1\n' ''
expect '$bin/shows <$scratch/fits' '' ''
expect '$bin/shows <$scratch/long' $'refused=1 place=0 line=1\n' ''
expect '$bin/shows $scratch/long' $'refused=1 place=0 line=1\n' ''
for program in tidy sort 'glass forth'; do
    expect '$bin/$program <$scratch/long' $'refused=1 place=0 line=1\n' $'refused=1 place=0 line=1\n'
done

# A refusal is told from a scene by standard error.
for program in tidy sort 'glass forth'; do
    expect '$bin/$program <$scratch/refused' $'refused=7 place=8 line=3\n' $'refused=7 place=8 line=3\n'
    expect '$bin/$program $scratch/refused' $'refused=7 place=8 line=3\n' "scene=$scratch/refused refused=7 place=8 line=3"$'\n'
    expect '$bin/$program <$scratch/loop' $'refused=26 place=41 line=2\n' $'refused=26 place=41 line=2\n'
done
expect '$bin/finishes <$scratch/refused' $'refused=7 place=8 line=3\n' ''
expect '$bin/shows <$scratch/refused' $'refused=7 place=8 line=3\n' ''
for program in finishes shows; do
    expect '$bin/$program <$scratch/loop' $'refused=26 place=41 line=2\n' ''
    expect '$bin/$program $scene $scratch/loop | tail -n 2' "scene=$scratch/loop"$'\nrefused=26 place=41 line=2\n' ''
done
expect '$bin/list <$scratch/loop' $'refused=26 place=41\n' ''
expect '$bin/compare $scene $scratch/loop' $'scene=right refused=26 place=41\n' ''

# A write that fails is said once, and is the last. A file that is opened may get the number of a closed standard output.
for program in list finishes shows tidy sort 'glass forth' words numerals; do
    expect '$bin/$program <$scene >/dev/full' '' "$full"
    expect '$bin/$program <$scene >&-' '' $'standard output: Bad file descriptor\n'
done
for program in list finishes shows tidy sort 'glass forth'; do
    expect '$bin/$program $scene $scene >/dev/full' '' "$full"
    expect '$bin/$program $scene $scene >&-' '' $'standard output: Bad file descriptor\n'
done
for program in list finishes shows tidy sort; do
    # An option that is unknown, or stands behind a file, is refused before anything is done.
    for arguments in '-x $scene' '$scene -' '--archiv $scene' '--archives $scene' '$scene --archive' '--archive --archive $scene' '--archive -x'; do
        expect '$bin/$program '"$arguments" "usage: $program [--archive] [FILE..]"$'\n' ''
    done
done
# So is a direction that is missing, unknown or behind a file.
for arguments in '' --archive '$scene' '--archive $scene' '$scene forth' sideways 'fort $scene' 'forths $scene' 'Forth $scene' '"" $scene' \
    '-x $scene' '-x forth $scene' 'forth -x $scene' 'forth $scene -' 'forth --archive $scene' '--archive --archive forth' '--archive back -x'; do
    expect '$bin/glass '"$arguments" $'usage: glass [--archive] forth|back [FILE..]\n' ''
done
expect '$bin/compare $scene samples/truck-nine-morning.rad >/dev/full' '' "$full"
expect '$bin/compare $scene missing >/dev/full' '' "$full"
for arguments in '-x $scene' '$scene' '-x $scene $scene' '--archive $scene' '$scene --archive $scene' '--archive $scene $scene $scene'; do
    expect '$bin/compare '"$arguments" $'usage: compare [--archive] LEFT RIGHT\n' ''
done

# The archive reading, on standard input, of a file and of several.
old=samples/truck-four.rad
retired=$'refused=28 place=120 line=4\n'
archive='archive=1
primitives=6 reals=25
no=1 mod=0 alias=0 type=plastic name=deskfront next=0
no=2 mod=0 alias=0 type=antimatter name=opening next=0
no=3 mod=0 alias=2 type=antimatter name=slot next=0
no=4 mod=1 alias=0 type=polygon name=desk next=0
no=5 mod=2 alias=0 type=sphere name=hatch next=0
no=6 mod=3 alias=0 type=sphere name=keyhole next=0
'
old_finishes='no=4 line=7 type=polygon name=desk finish=1 finish_name=deskfront finish_line=2 nth=1 of=1 links=1
no=5 line=9 type=sphere name=hatch finish=2 finish_name=opening finish_line=4 nth=1 of=1 links=1
no=6 line=11 type=sphere name=keyhole finish=3 finish_name=slot finish_line=6 nth=1 of=1 links=1
'
old_shows='no=4 name=desk shows=1
no=5 name=hatch shows=2
no=6 name=keyhole shows=3
'
expect '$bin/list $old' $'refused=28 place=120\n' ''
expect '$bin/list --archive $old' "$archive" ''
expect '$bin/list --archive <$old' "$archive" ''
expect '$bin/list --archive $scene' $'archive=1\n'"$listing" ''
expect '$bin/list --archive $scene $old' "scene=$scene"$'\narchive=1\n'"${listing}scene=$old"$'\n'"$archive" ''
expect '$bin/list --archive <$scratch/refused' $'refused=7 place=8\n' ''
expect '$bin/finishes $old' "$retired" ''
expect '$bin/finishes --archive $old' "$old_finishes" ''
expect '$bin/finishes --archive <$old' "$old_finishes" ''
expect '$bin/finishes --archive $scene' "$finishes" ''
expect '$bin/shows $old' "$retired" ''
expect '$bin/shows --archive $old' "$old_shows" ''
expect '$bin/shows --archive <$old' "$old_shows" ''
expect '$bin/shows --archive $scene' "$shows" ''
expect '$bin/shows --archive $scene $old' "scene=$scene"$'\n'"${shows}scene=$old"$'\n'"$old_shows" ''
expect '$bin/tidy <$old' "$retired" "$retired"
expect '$bin/sort <$old' "$retired" "$retired"
expect '$bin/sort --archive <$old | $bin/compare --archive $old /dev/stdin' '' ''
expect '$bin/glass forth <$old' "$retired" "$retired"
for program in 'tidy --archive' 'glass --archive forth'; do
    expect '$bin/$program <$scene' "$tidy" ''
    expect '$bin/$program missing' $'scene=missing unreadable\n' $'scene=missing unreadable\n'
    expect '$bin/$program <$old | $bin/list --archive' "$archive" ''
done
expect '$bin/compare $scene $old' $'scene=right refused=28 place=120\n' ''
expect '$bin/compare $old $scene' $'scene=left refused=28 place=120\n' ''
expect '$bin/compare --archive $old $old' '' ''
expect '$bin/compare --archive $old missing' $'scene=right unreadable\n' ''

# Two hands' edits joined, and a join checked: what is refused or cannot be read is said on standard error too.
joined=$(cat crates/join/stdout)$'\n'
two=samples/truck-two
hands="$two.rad $two-left.rad $two-right.rad"
nine=samples/truck-nine
clash=$'refused=30 place=0 name=deskfront\n'
printf '%s' "$joined" >"$scratch/joined"
printf '%svoid plastic more 0 0 5 1 1 1 0 0\n' "$joined" >"$scratch/more"
expect '$bin/join $hands' "$joined" ''
expect '$bin/join --archive $hands' "$joined" ''
expect '$bin/join $two.rad $two.rad $two.rad | $bin/compare $two.rad /dev/stdin' '' ''
expect '$bin/join $hands $scratch/joined' $'joined primitives=7 reals=60\n' ''
expect '$bin/sort $scratch/joined | $bin/join $hands /dev/stdin' $'joined primitives=7 reals=60\n' ''
expect '$bin/join $hands $scratch/more' $'refused=32 place=0\n' $'refused=32 place=0\n'
expect '$bin/join $hands $two-left.rad' $'refused=32 place=0\n' $'refused=32 place=0\n'
expect '$bin/join $nine-parted.rad $nine-left.rad $nine-right.rad' "$clash" "$clash"
expect '$bin/join $nine.rad $nine-left.rad $nine-right.rad' $'refused=29 place=0\n' $'refused=29 place=0\n'
refused=$'scene=left refused=28 place=120\n'
expect '$bin/join $two.rad $old $two-right.rad' "$refused" "$refused"
refused=$'scene=typed refused=7 place=8\n'
expect '$bin/join $hands $scratch/refused' "$refused" "$refused"
refused=$'scene=base refused=1 place=0\n'
expect '$bin/join $scratch/long $scratch/refused missing' $'scene=right unreadable\n' $'scene=right unreadable\n'
expect '$bin/join $scratch/long $scratch/refused $scratch/refused' "$refused" "$refused"
expect '$bin/join missing missing missing missing' $'scene=base unreadable\n' $'scene=base unreadable\n'
expect '$bin/join $hands missing' $'scene=typed unreadable\n' $'scene=typed unreadable\n'
expect '$bin/join $hands >/dev/full' '' "$full"
for arguments in '' '$scene' '$scene $scene' '-x $hands' '$hands --archive' '$hands $scene $scene' '--archive $scene $scene'; do
    expect '$bin/join '"$arguments" $'usage: join [--archive] BASE LEFT RIGHT [TYPED]\n' ''
done

echo "$passed passed, $failed failed"
[ "$failed" -eq 0 ]
