# Completion of md_prog for bash: `. md_prog.bash`. Made of docs/MANUAL.md by bench/manual_page.py.
_md_prog() {
    local word=${COMP_WORDS[COMP_CWORD]} before=${COMP_WORDS[COMP_CWORD - 1]} options values wanted=files other
    COMPREPLY=()
    if ((COMP_CWORD == 1)); then
        COMPREPLY=($(compgen -W 'info run demo vgm play asm debug rollback' -- "$word"))
        return
    fi
    # bash takes = for a word of its own
    [[ $word == = ]] && word=
    [[ $before == = ]] && before=${COMP_WORDS[COMP_CWORD - 2]}
    case ${COMP_WORDS[1]} in
        info) options='  ' ;;
        run) options=' --cycles --in --load --save --frames --sound --journal --workers --pal ' ;;
        demo) options=' --cycles --workers --pal ' wanted= ;;
        vgm) options=' --pal ' ;;
        play) options=' --pal ' ;;
        asm) options=' --list ' ;;
        debug) options='  ' ;;
        rollback) options=' --window ' ;;
        *) return ;;
    esac
    for other in "${COMP_WORDS[@]:2:COMP_CWORD-2}"; do
        [[ $other == -- ]] && options=
        [[ $other == --* ]] && options=${options/ $other / }
    done
    case $before in
        --cycles) values='' wanted=values ;;
        --workers) values='1 2 3 4 5' wanted=values ;;
        --window) values='1 2 3 4 5 6 7 8 9 10 11 12 13 14 15 16' wanted=values ;;
        --in | --load | --save | --frames | --sound | --journal | --list) wanted=files ;;
        *) [[ $word == -* ]] && values=$options wanted=values ;;
    esac
    case $wanted in
        values) COMPREPLY=($(compgen -W "$values" -- "$word")) ;;
        files)
            compopt -o filenames 2> /dev/null
            mapfile -t COMPREPLY < <(compgen -f -- "$word")
            ;;
    esac
}
complete -F _md_prog md_prog
