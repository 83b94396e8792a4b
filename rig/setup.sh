# What the commands share, to be sourced at the top of the repository: packages installed, library and programs built, and no
# program on the path but those of rig/programs.txt.

# Runs a command, and shows what it wrote only where it fails; and what it left out.
quietly() {
    local log result=0
    log=$(mktemp)
    "$@" >"$log" 2>&1 || result=$?
    if [ $result -eq 0 ]; then
        grep 'LEFT OUT' "$log" || :
    else
        cat "$log" >&2
    fi
    rm -f "$log"
    return $result
}

# The library's archives, proved, and the programs that cargo is asked for. What is up to date is for rt and cargo to decide; the
# environment may name another archive and another place for what is built, which would not be these.
build() { # CARGO'S ARGUMENTS
    quietly ./archives nidhaaguf nidhaaguf_serve
    (cd host && quietly env -u NIDHAAGUF_LIB cargo build --offline --target-dir target "$@")
}

# The programs that these start, each with its package.
programs_of() { # WHO..
    local program package starters who
    while read -r program package starters; do
        for who in "$@"; do
            [[ " $starters " != *" $who "* ]] || echo "$program $package"
        done
    done < <(grep -v '^#' rig/programs.txt) | sort -u
}

# Where a program is: PostgreSQL's are not on Debian's path, and the project's own are where cargo puts them.
path_of() { # PROGRAM
    local postgres
    postgres=$(compgen -G '/usr/lib/postgresql/*/bin' | sort -V | tail -n 1)
    PATH=$PWD/host/target/release:${postgres:+$postgres:}$PATH type -P "$1"
}

# The packages of the programs that aren't there.
missing_packages() { # WHO..
    local program package
    programs_of "$@" | while read -r program package; do
        [ "$package" = - ] || path_of "$program" >/dev/null || echo "$package"
    done | sort -u
}

# Installs what these start and is missing. What can't be had is told, with apt's reason, and fails.
install_programs() { # WHO..
    local missing
    mapfile -t missing < <(missing_packages "$@")
    [ ${#missing[@]} -gt 0 ] || return 0
    if [ "$(id -u)" != 0 ]; then
        echo "the packages ${missing[*]} are missing, and to install them takes root" >&2
        return 1
    fi
    echo "installing ${missing[*]}"
    install_packages "${missing[@]}" || return 1
    mapfile -t missing < <(missing_packages "$@")
    if [ ${#missing[@]} -gt 0 ]; then
        echo "installed, and rig/programs.txt names a program that is not in it: ${missing[*]}" >&2
        return 1
    fi
}

# In a subshell of its own, for the trap. Debian starts a database or a proxy as soon as it is installed, unless a policy forbids it.
install_packages() ( # PACKAGE..
    policy=/usr/sbin/policy-rc.d clusters=/etc/postgresql-common/createcluster.conf made=
    log=$(mktemp)
    trap 'rm -f "$log" $made' EXIT
    if [ ! -e $policy ]; then
        made=$policy
        printf '#!/bin/sh\nexit 101\n' >$policy
        chmod +x $policy
    fi
    if [[ " $* " == *' postgresql '* && ! -e $clusters ]]; then
        mkdir -p "$(dirname $clusters)"
        echo 'create_main_cluster = false' >$clusters
    fi
    export DEBIAN_FRONTEND=noninteractive UCF_FORCE_CONFFOLD=1
    # where this fails, the package lists that are there may still do
    apt-get -qq update >"$log" 2>&1 || :
    for package in "$@"; do
        apt-get -qq -o DPkg::Lock::Timeout=300 install --no-install-recommends "$package" >>"$log" 2>&1 || {
            echo "the package $package can't be installed:" >&2
            cat "$log" >&2
            exit 1
        }
    done
)

# From here on nothing is on the path but what these start. So a program that the table lacks is found on every machine.
# (Not by links: some programs look beside themselves for others.)
only_programs_of() { # DIRECTORY to make, WHO..
    local directory=$1 program package
    shift
    mkdir "$directory"
    while read -r program package; do
        printf '#!/bin/sh\nexec %q "$@"\n' "$(path_of "$program")" >"$directory/$program"
    done < <(programs_of "$@")
    chmod 755 "$directory"/*
    PATH=$directory
}
