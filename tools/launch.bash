# What the launcher in the repository and the one that is installed have in common. They read it; it is
# not called. What it says goes to standard error.

say() {
    printf 'genesis: %s\n' "$1" >&2
}

give_up() {
    say "$1"
    exit 70
}

# usage COMMAND: the words that the program takes.
usage() {
    cat >&2 <<END
genesis: usage
    $1 check SCHEMA EQUATION                  tells whether the equation can be carried out
    $1 try   SCHEMA EQUATION < SCRIPT         plays the script on a new database in memory
    $1 explain SCHEMA EQUATION < SCRIPT       tells how each find looks for its records
    $1 make  SCHEMA EQUATION DEVICE BLOCKS    makes an empty database in a new file
    $1 run   SCHEMA EQUATION DEVICE < SCRIPT  plays the script on the database in that file
    $1 share SCHEMA EQUATION DEVICE < SCRIPT  plays turns of up to eight sessions on it
    $1 inspect SCHEMA EQUATION DEVICE         examines the database in that file
    $1 work  EQUATION DEVICE BLOCKS N         plays a workload of N records on a new file
    $1 --which                                tells which file the program is
    $1 --version                              tells the version, the commit and the toolchain
END
}

# Whether the words have the form of a request. All else is the program's to judge.
is_request() {
    case $1 in
    check | try | explain) [[ $# = 3 ]] ;;
    run | share | inspect) [[ $# = 4 ]] ;;
    make | work) [[ $# = 5 ]] ;;
    *) false ;;
    esac
}

# Whether the request hears a script.
hears_script() {
    [[ $1 = @(try|explain|run|share) ]]
}

# Says what a person may not expect. It changes neither what is said nor the status.
hint() {
    hears_script "$1" && [[ -t 0 ]] &&
        say 'the script is read from this terminal, and each line is answered where it ends; Ctrl-D ends the script'
}

# Whether another program has a file. Where the system tells its locks none is taken to see it.
is_locked() {
    local inode line
    if [[ -r /proc/locks ]]; then
        inode=$(stat -c %i -- "$1") || return
        while read -r line; do
            [[ $line != *' FLOCK '*":$inode "* ]] || return 0
        done </proc/locks
        return 1
    fi
    command -v flock >/dev/null && ! flock -n -- "$1" true 2>/dev/null
}

# Whether the disk of a file has no room.
is_full() {
    local line
    { read -r && read -r _ _ _ line _; } < <(df -P -- "$1" 2>/dev/null) || return
    [[ $line =~ ^[0-9]+$ ]] && ((line < 16))
}

# The causes of status 3 that can be seen from outside, for the words of a request, a line each.
causes() {
    local request=$1 texts=("${@:2:2}") device='' name folder
    case $request in
    make | run | share | inspect) device=$4 ;;
    work) texts=("$2") device=$3 ;;
    esac
    for name in "${texts[@]}"; do
        [[ ! -e $name || -r $name ]] || echo "can't read $name"
    done
    case $request in
    run | share | inspect)
        if [[ -f $device ]]; then
            [[ -r $device && -w $device ]] || echo "can't read and write $device"
            ! is_locked "$device" ||
                echo "another program has $device, or one that was killed hasn't let go of it yet:" \
                    "flock $device true waits for that"
            [[ $request = inspect ]] || ! is_full "$device" || echo "the disk of $device has no room"
        fi
        ;;
    make | work)
        folder=$(dirname -- "$device")
        if [[ ! $device ]]; then
            echo 'DEVICE has no letter'
        elif [[ ! -d $folder ]]; then
            echo "there is no folder $folder"
        elif [[ ! -e $device && ! (-w $folder && -x $folder) ]]; then
            echo "can't make a file in the folder $folder"
        else
            ! is_full "$folder" || echo "the disk of $folder has no room"
        fi
        [[ ! -f $device ]] || echo "a part of $device may have been made: remove it"
        ;;
    esac
    if hears_script "$request"; then
        [[ $has_input ]] || echo 'standard input is closed'
        [[ ! -d /dev/fd/0 ]] || echo 'standard input is a folder'
    fi
    if [[ ! $has_output ]]; then
        echo 'standard output is closed'
    elif [[ -f /proc/$$/fd/1 ]]; then
        ! is_full "/proc/$$/fd/1" || echo 'the disk of the answers has no room'
    elif [[ -c /proc/$$/fd/1 && /proc/$$/fd/1 -ef /dev/full ]]; then
        echo 'standard output takes nothing'
    fi
}

# Says which cause of status 3 holds.
explain_outside() {
    local cause found=
    while IFS= read -r cause; do
        found=1
        say "$cause"
    done < <(causes "$@")
    if [[ ! $found && -p /proc/$$/fd/1 ]]; then
        say 'the program that reads the answers may have ended'
    elif [[ ! $found ]]; then
        say 'something outside failed; docs/MANUAL.md tells what it can be, under "Status 3, and no word"'
    fi
}

# launch PROGRAM WORD..: runs the program, hands each signal on to it, and ends as it does. After status 3 it says why.
launch() {
    local child='' status=0 got signal trapped='' has_input='' has_output=''
    { : 9<&0; } 2>/dev/null && has_input=1
    { : 9>&1; } 2>/dev/null && has_output=1
    for signal in HUP INT QUIT TERM USR1 USR2 ALRM; do
        trap "trapped=$signal; [[ ! \$child ]] || kill -s $signal \"\$child\" 2>/dev/null" "$signal"
    done
    # (a shell lets what it starts beside itself ignore two signals, and read nothing)
    if [[ $has_input ]]; then
        (trap - INT QUIT && exec "$@") <&0 &
    else
        (trap - INT QUIT && exec "$@") <&- &
    fi
    child=$!
    [[ ! $trapped ]] || kill -s "$trapped" "$child"
    while
        trapped=
        wait "$child" 2>/dev/null
        got=$?
        # (where the program ended between, there is nothing to wait for any more)
        ((got < 0 || got == 127)) || status=$got
        [[ $trapped ]]
    do :; done
    [[ $status != 3 ]] || explain_outside "${@:2}"
    if ((status > 128)); then
        ulimit -c 0
        trap - "$((status - 128))"
        kill -s "$((status - 128))" $$
    fi
    exit "$status"
}
