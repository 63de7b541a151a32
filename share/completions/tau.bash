# Made by share/make from the table "Words" of docs/manual.md.
# shellcheck shell=bash

_tau() {
    local word=${COMP_WORDS[COMP_CWORD]} before=${COMP_WORDS[COMP_CWORD-1]} commands="run check audit report print gen drill migrate keep resume why cut draw storm" options="" command="" number="" at
    local needing=" gen drill why " reading=" run check audit report print migrate keep why cut draw storm decisions gather atlas "
    COMPREPLY=()
    if [[ $COMP_CWORD -eq 1 ]]; then
        mapfile -t COMPREPLY < <(compgen -W "$commands help version decisions gather atlas prove" -- "$word")
        return
    fi
    for ((at = 1; at < COMP_CWORD; at++)); do
        case ${COMP_WORDS[at]} in
        -* | =) ;;
        *)
            if [[ ${COMP_WORDS[at-1]} == --* && ${COMP_WORDS[at-1]} != -- && ${COMP_WORDS[at-1]} != --over || ${COMP_WORDS[at-1]} == = ]]; then continue
            elif [[ -z $command ]]; then command=${COMP_WORDS[at]}
            else number=${COMP_WORDS[at]}
            fi
            ;;
        esac
    done
    case $command in
    run) options="--workers --jobs --seed --steps" ;;
    keep) options="--workers --jobs --seed --steps --over" ;;
    resume) options="--workers --jobs --seed --steps" ;;
    draw) options="--from --to" ;;
    storm) options="--claim --show --workers --jobs --seed --seeds --fails --losses --repeats --every --steps" ;;
    atlas) options="--claim --workers --jobs --seed --seeds --fails --losses --repeats --every --steps" ;;
    help)
        [[ $COMP_CWORD -gt 2 ]] || mapfile -t COMPREPLY < <(compgen -W "$commands" -- "$word")
        return
        ;;
    esac
    if [[ $before == --* && $before != -- && $before != --over || $before == = || $word == = ]]; then return; fi
    if [[ $word == -* ]]; then
        mapfile -t COMPREPLY < <(compgen -W "$options" -- "$word")
        return
    fi
    [[ $reading == *" $command "* ]] || return
    [[ $needing != *" $command "* || -n $number ]] || return
    compopt -o filenames
    mapfile -t COMPREPLY < <(compgen -f -- "$word")
}

complete -F _tau tau
