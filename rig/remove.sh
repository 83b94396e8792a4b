# Removes what a drill has made, to be sourced. All of it is called after the drill's process number: the network namespaces
# nidNUMBER_.. and the directory nidNUMBER_.. of its files.

temporary=${TMPDIR:-/tmp}

namespaces_of() { # NUMBER
    local path
    for path in /run/netns/nid"$1"_*; do
        [ ! -e "$path" ] || echo "${path##*/}"
    done
}

processes_of() { # NUMBER: what runs in its namespaces
    local namespace
    for namespace in $(namespaces_of "$1"); do
        ip netns pids "$namespace" || :
    done
}

end_processes_of() { # NUMBER
    local round processes
    for round in {1..500}; do
        mapfile -t processes < <(processes_of "$1")
        [ ${#processes[@]} -gt 0 ] || return 0
        kill -KILL "${processes[@]}" 2>/dev/null || :
        sleep 0.01
    done
    echo "processes are left after $round times SIGKILL: ${processes[*]}" >&2
}

# A PostgreSQL that was killed leaves a segment of shared memory, whose number is in the seventh line of its lock file.
remove_shared_memory() { # NUMBER
    local file lines segment
    for file in "$temporary"/nid"$1"_*/{template,*/data*}/postmaster.pid; do
        [ -e "$file" ] || continue
        mapfile -t lines <"$file"
        segment=${lines[6]-}
        segment=${segment##* }
        [ -z "$segment" ] || ipcrm -m "$segment" || :
    done
}

remove_made_by() { # NUMBER
    local namespace
    end_processes_of "$1"
    remove_shared_memory "$1"
    for namespace in $(namespaces_of "$1"); do
        ip netns delete "$namespace"
    done
    rm -rf "$temporary"/nid"$1"_*
}

# A drill that was killed by SIGKILL has removed nothing. Its number is no process's any more, or by chance this one's.
remove_left_behind() {
    local path number
    for path in /run/netns/nid*_* "$temporary"/nid*_*; do
        [[ -e $path && ${path##*/} =~ ^nid([0-9]+)_ ]] || continue
        number=${BASH_REMATCH[1]}
        [ "$number" = $$ ] || [ ! -e /proc/"$number" ] || continue
        echo "an earlier drill, process $number, was killed: removing its $(namespaces_of "$number" | wc -l) namespaces," \
            "$(processes_of "$number" | wc -l) processes and its files"
        remove_made_by "$number"
    done
}
