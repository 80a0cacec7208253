# Completes the words of tsheard in bash: the name of the configuration and the options.

_tsheard() {
	local word=${COMP_WORDS[COMP_CWORD]} options='--start --seconds --from --to' option left=
	COMPREPLY=()
	if ((COMP_CWORD == 1)); then
		COMPREPLY=($(compgen -f -- "$word"))
	elif ((COMP_CWORD % 2 == 0)); then
		for option in $options; do
			[[ " ${COMP_WORDS[*]:2:COMP_CWORD-2} " == *" $option "* ]] || left+=" $option"
		done
		COMPREPLY=($(compgen -W "$left" -- "$word"))
	fi
}
complete -o filenames -F _tsheard tsheard
